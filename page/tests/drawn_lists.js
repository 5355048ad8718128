// SPDX-License-Identifier: BSD-3-Clause
// Draws pairs of short lists, and compares for drawn keys the pairs of lines that the page finds with what matches each
// key in either list. It gives how many keys were tried, how many of them differ, and the first fault.
import { Differences } from '../differences.js';
import { rulesOf } from '../rules.js';
import { matching } from '../why.js';
import { hasKey } from '../pieces.js';
import { fewer } from '../piece_text.js';
import { fieldsOf } from '../text.js';

const LISTS = 250;
const KEYS = 300;
const PROTOCOLS = ['6/255', '17/255', '1/255', '0/0'];

let seed = 1;
function draw(limit) {
  seed = (seed * 1103515245 + 12345) % 2147483648;
  return Math.floor(seed / 65536) % limit;
}

const hex = (number, width) => number.toString(16).padStart(width, '0');

function drawLine(family) {
  const [near, far] = family === 4 ? ['10.0.0.', '10.0.1.'] : ['2001:db8::', '2001:db8::1:'];
  const lengths = family === 4 ? [0, 28, 30, 31, 32] : [0, 124, 126, 127, 128];
  const [low, from] = [draw(4), [65535, 3, 1][draw(3)]];
  const more = `${draw(5) ? '' : ` pri=${1 + draw(5)}`}${draw(4) ? '' : ` cat=${1 + draw(3)}`}`;
  return `@${near}${draw(4) * 2}/${lengths[draw(3)]} ${far}${draw(4)}/${lengths[draw(2) && 3 + draw(2)]} 0 : ${from} `
    + `${low} : ${low + draw(3)} ${PROTOCOLS[draw(4)]} data=${1 + draw(2)}${more}`;
}

function listOf(lines) {
  const entries = rulesOf(new TextEncoder().encode(`${lines.join('\n')}\n`)).map(({ number, text, match }) => (
    { place: `line ${number}`, text, match, answer: match.userdata }));
  return { entries, chains: null, none: 0 };
}

function drawReport(family) {
  const lines = Array.from({ length: 1 + draw(8) }, () => drawLine(family));
  const others = lines.map((it) => (draw(3) ? it : drawLine(family)));
  if (!draw(3)) others.splice(draw(others.length), 1);
  if (!draw(3)) others.reverse();
  const answer = (list, place) => (place < 0 ? list.none : list.entries[place].answer);
  return { old: listOf(lines), list: listOf(others), categories: [0, 1], answer };
}

function drawKey(family) {
  const protocol = [6, 17, 1, 99][draw(4)];
  const ports = protocol === 6 || protocol === 17 ? [draw(5), draw(8)] : [0, 0];
  const ends = family === 4 ? [hex(0x0a000000 + draw(12), 8), hex(0x0a000100 + draw(6), 8)]
    : [`20010db8${hex(draw(12), 24)}`, `20010db8${hex(0x10000 + draw(6), 24)}`];
  return `${hex(protocol, 2)}${ends.join('')}${ports.map((it) => hex(it, 4)).join('')}`;
}

// What is wrong about a key, or nothing; and whether both lists answer it differently.
function tryKey(report, category, pairs, key) {
  const [old, now] = [report.old, report.list].map((it) => matching(it, key, category)[0] ?? -1);
  const isOf = (part) => part.family === fieldsOf(key).family && hasKey(part, fieldsOf(key));
  const own = pairs.flatMap((it) => it.parts.filter(isOf).map(() => it));
  const differs = report.answer(report.old, old) !== report.answer(report.list, now);
  const isRight = differs ? own.length === 1 && own[0].old === old && own[0].now === now : !own.length;
  const isShown = pairs.every((it) => fewer(it.parts).some(isOf) === own.includes(it));
  return { differs, fault: isRight && isShown ? null : { key, old, now, found: own.map((it) => it.name) } };
}

export function compareDrawn() {
  const told = { tried: 0, differ: 0, fault: null };
  for (let it = 0; it < LISTS; it++) {
    const family = it % 3 ? 4 : 6;
    const report = drawReport(family);
    for (const category of [0, 1]) {
      const found = new Differences(report, category);
      for (let at = 0; at < KEYS && !told.fault; at++) {
        const { differs, fault } = tryKey(report, category, [...found.pairs.values()], drawKey(family));
        told.tried++;
        told.differ += differs;
        told.fault = fault ?? (found.isCut ? 'the search was cut' : null);
      }
    }
  }
  return told;
}
