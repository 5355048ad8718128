// SPDX-License-Identifier: BSD-3-Clause
// Answers over the time of the capture as stacked bars, by line or by answer; a range of it filters the packets.
import { count, endTimeText, lengthText, make, many, rangeText, timeText } from './text.js';

const MOST_SERIES = 8;
const PARTS = 160;
// The chart is as wide as there is room, so that its texts keep their size.
const SIZE = { height: 300, left: 62, right: 6, top: 8, bottom: 26 };
const LEAST_WIDTH = 280;
// A middle time is told if there is room for three.
const ROOM_FOR_THREE = 560;

// What the packets of each outcome are counted under, by line or by answer.
function labelsOf(page, by) {
  const { report } = page;
  const list = report.packets.lists - 1;
  return report.packets.outcomes.map(({ kind }, place) => {
    if (kind < 4) return 'no IP packet';
    const entry = report.packets.decider(place, list, page.category);
    if (by === 'line' && entry >= 0) return report.list.entries[entry].place;
    return report.answerText(report.list, entry);
  });
}

// The parts of the time, one for each bar: where the first begins, how long each is, and how many there are. Where not all
// packets are held they are the parts in which these were counted.
function partsOf({ allHeld, start, end, width, buckets }) {
  if (allHeld) {
    const own = (end - start + BigInt(PARTS)) / BigInt(PARTS);
    return { start, width: own, parts: Number((end - start) / own) + 1 };
  }
  let [first, last] = [start, start];
  for (const [time] of buckets) {
    if (time < first) first = time;
    if (time > last) last = time;
  }
  return { start: first, width, parts: Number((last - first) / width) + 1 };
}

// Each packet, or each part of the time where not all packets are held: a time, an outcome and a count.
function eachOf(packets, does) {
  if (packets.allHeld) for (let at = 0; at < packets.held; at++) does(packets.time[at], packets.outcome[at], 1);
  else for (const [time, outcome, total] of packets.buckets) does(time, outcome, total);
}

// The counts of each part of the time: the series, the most first, and a row of counts for each.
function countsOf(page, by) {
  const { packets } = page.report;
  const labels = labelsOf(page, by);
  const totals = new Map();
  packets.outcomes.forEach(({ total }, place) => totals.set(labels[place], (totals.get(labels[place]) ?? 0) + total));
  const names = [...totals.keys()].sort((one, other) => totals.get(other) - totals.get(one));
  const shown = names.length > MOST_SERIES + 1 ? [...names.slice(0, MOST_SERIES), 'all others'] : names;
  const place = new Map(names.map((name, at) => [name, Math.min(at, shown.length - 1)]));
  const series = labels.map((name) => place.get(name));
  const { start, width, parts } = partsOf(packets);
  const rows = Array.from({ length: parts }, () => new Float64Array(shown.length));
  eachOf(packets, (time, outcome, total) => { rows[Number((time - start) / width)][series[outcome]] += total; });
  const sums = shown.map((_, at) => rows.reduce((sum, row) => sum + row[at], 0));
  return { names: shown, rows, start, width, parts, sums };
}

const classOf = (name, at) => (name === 'all others' ? 'others' : name === 'no rule' || name === 'no IP packet' ? 'none' : `series${at % MOST_SERIES}`);

// A number of at least this size, of which a half and a quarter are easily read.
function roundUp(value) {
  const unit = 10 ** Math.floor(Math.log10(Math.max(1, value)));
  return [1, 2, 4, 10].map((it) => it * unit).find((it) => it >= value);
}

const inner = { height: SIZE.height - SIZE.top - SIZE.bottom };
const innerWidth = (width) => width - SIZE.left - SIZE.right;

function barsOf(found, most, wide) {
  const step = innerWidth(wide) / found.parts;
  return found.rows.flatMap((row, part) => {
    let under = 0;
    return [...row].map((value, at) => {
      if (!value) return null;
      const height = (value / most) * inner.height;
      under += height;
      return make('rect', { class: classOf(found.names[at], at), x: SIZE.left + part * step, width: Math.max(0.8, step - Math.min(0.6, step / 4)),
        y: SIZE.top + inner.height - under, height });
    });
  });
}

function axes({ start, width, parts }, most, wide) {
  const lines = [0, 0.25, 0.5, 0.75, 1].filter((it) => it === 0 || it * most >= 1).map((part) => {
    const y = SIZE.top + inner.height * (1 - part);
    return make('g', {}, make('line', { class: 'grid', x1: SIZE.left, x2: wide - SIZE.right, y1: y, y2: y }),
      make('text', { x: SIZE.left - 6, y: y + 4, 'text-anchor': 'end' }, count(Math.round(part * most))));
  });
  const timeAt = (part) => start + (width * BigInt(parts) * BigInt(part * 2)) / 2n;
  const shown = wide < ROOM_FOR_THREE ? [0, 1] : [0, 0.5, 1];
  const times = shown.map((part) => make('text', { x: SIZE.left + part * innerWidth(wide), y: SIZE.height - 8,
    'text-anchor': ['start', 'middle', 'end'][part * 2] }, part ? endTimeText(timeAt(0), timeAt(part)) : timeText(timeAt(0))));
  return [...lines, ...times];
}

// The chart, on which a range is drawn.
function chartOf(found, wide, choose) {
  const most = roundUp(Math.max(...found.rows.map((row) => row.reduce((sum, it) => sum + it, 0))));
  const range = make('rect', { class: 'range', y: SIZE.top, height: inner.height, x: 0, width: 0 });
  const chart = make('svg', { viewBox: `0 0 ${wide} ${SIZE.height}`, width: wide, height: SIZE.height, class: 'chart', role: 'img',
    'aria-label': `Packets over ${lengthText(found.width * BigInt(found.parts))}, stacked by ${found.names.join(', ')}` }, axes(found, most, wide), barsOf(found, most, wide), range);
  const partAt = (event) => {
    const box = chart.getBoundingClientRect();
    const x = ((event.clientX - box.left) / box.width) * wide - SIZE.left;
    return Math.max(0, Math.min(found.parts - 1, Math.floor((x / innerWidth(wide)) * found.parts)));
  };
  let from = null;
  chart.addEventListener('pointerdown', (event) => {
    from = partAt(event);
    chart.setPointerCapture(event.pointerId);
    choose(from, from + 1);
    event.preventDefault();
  });
  chart.addEventListener('pointermove', (event) => from !== null && choose(Math.min(from, partAt(event)), Math.max(from, partAt(event)) + 1));
  chart.addEventListener('pointerup', () => { from = null; });
  const mark = (first, last) => {
    range.setAttribute('x', SIZE.left + (first / found.parts) * innerWidth(wide));
    range.setAttribute('width', first === 0 && last === found.parts ? 0 : ((last - first) / found.parts) * innerWidth(wide));
  };
  return { chart, mark };
}

function legendOf(found) {
  return make('ul', { class: 'legend' }, found.names.map((name, at) => make('li', {}, make('span', { class: `key ${classOf(name, at)}` }),
    `${name} `, make('span', { class: 'note' }, count(found.sums[at])))));
}

function slider(id, text, value, parts, does) {
  const input = make('input', { type: 'range', id, min: 0, max: parts, step: 1, oninput: (event) => does(Number(event.target.value)) });
  input.value = value;
  return { input, field: make('div', { class: 'field' }, make('label', { for: id }, text), input) };
}

// Where the parts that are picked begin, and where those after them do.
const rangeOf = ({ start, width }, { first, last }) => [first, last].map((part) => start + width * BigInt(part));

// The range that is picked, with two sliders for the keyboard, and what is done with it.
function picker(page, found, told) {
  const { start, width, parts } = found;
  const state = { first: 0, last: parts, mark: () => {} };
  if (page.filter.from !== null) {
    const placeOf = (time) => Math.max(0, Math.min(parts, Number((time - start) / width)));
    Object.assign(state, { first: placeOf(page.filter.from), last: placeOf(page.filter.to + width - 1n) });
  }
  const choose = (first, last) => {
    Object.assign(state, { first: Math.min(first, parts - 1), last: Math.max(last, first + 1) });
    from.input.value = state.first;
    to.input.value = state.last;
    state.mark(state.first, state.last);
    let total = 0;
    for (const row of found.rows.slice(state.first, state.last)) total += row.reduce((sum, it) => sum + it, 0);
    told.textContent = `${rangeText(...rangeOf(found, state))}: ${many(total, 'packet')}`;
  };
  const from = slider('from', 'From', state.first, parts, (value) => choose(value, Math.max(state.last, value + 1)));
  const to = slider('to', 'To', state.last, parts, (value) => choose(Math.min(state.first, Math.max(0, value - 1)), value));
  return { state, choose, fields: [from.field, to.field] };
}

export function timeView(page) {
  const { packets } = page.report;
  if (packets.end === packets.start) return [make('p', { class: 'lead' }, 'All packets of this capture have the same time, so there is nothing to draw.')];
  const place = make('div', {});
  const told = make('span', { class: 'note', role: 'status' });
  let redraw = () => {};
  const watch = new ResizeObserver(() => redraw());
  const draw = (by) => {
    const found = countsOf(page, by);
    const { state, choose, fields } = picker(page, found, told);
    const room = make('div', { class: 'room' });
    let wide = 0;
    const drawn = () => {
      const now = Math.max(LEAST_WIDTH, room.clientWidth || document.getElementById('view').clientWidth);
      if (now === wide) return;
      wide = now;
      const { chart, mark } = chartOf(found, wide, choose);
      state.mark = mark;
      room.replaceChildren(chart);
      mark(state.first, state.last);
    };
    watch.disconnect();
    watch.observe(room);
    redraw = drawn;
    const show = make('button', { type: 'button', onclick: () => page.showRange(...rangeOf(found, state)) }, 'Show these packets');
    const all = make('button', { type: 'button', onclick: () => choose(0, found.parts) }, 'The whole time');
    place.replaceChildren(legendOf(found), room, make('div', { class: 'tools' }, fields, show, all, told));
    drawn();
    choose(state.first, state.last);
  };
  const by = make('select', { id: 'stacked', onchange: (event) => draw(event.target.value) },
    make('option', { value: 'answer' }, 'answer'), make('option', { value: 'line' }, page.report.list.what));
  draw('answer');
  return [make('p', { class: 'lead' }, `${many(packets.total, 'packet')} in ${lengthText(packets.end - packets.start)}; times are of Greenwich. Draw over the bars to pick a part of it.`),
    make('div', { class: 'tools' }, make('label', { for: 'stacked' }, 'Stacked by'), by), place];
}
