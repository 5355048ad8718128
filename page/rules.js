// SPDX-License-Identifier: BSD-3-Clause
// The lines of a rule file that the program has accepted, as the page shows them. The program reads lists itself. What the
// page reads here is compared with its answers.

import { shown } from './text.js';

const ATTRIBUTE = /[ \t]+(pri|cat|data)=(\S+)/g;
const MOST_PRIORITY = 536870911;

const utf8 = new TextDecoder('utf-8', { fatal: true });

// A line's text; a byte that isn't UTF-8 is shown as its number.
function textOf(bytes) {
  try {
    return shown(utf8.decode(bytes));
  } catch (fault) {
    if (!(fault instanceof TypeError)) throw fault;
    return shown(Array.from(bytes, (it) => (it < 128 ? String.fromCharCode(it) : `\\x${it.toString(16)}`)).join(''));
  }
}

// The lines of a file, each as its bytes without its end.
export function linesOf(bytes) {
  const lines = [];
  for (let at = 0; at <= bytes.length;) {
    const end = bytes.indexOf(10, at);
    const last = end < 0 ? bytes.length : end;
    lines.push(bytes.subarray(at, last > at && bytes[last - 1] === 13 ? last - 1 : last));
    at = last + 1;
  }
  return lines;
}

const numberOf = (text) => (/^0[xX]/.test(text) ? parseInt(text, 16) : Number(text));

// The digits of an address.
function addressDigits(text) {
  if (!text.includes(':')) return text.split('.').map((it) => Number(it).toString(16).padStart(2, '0')).join('');
  const ip4 = text.match(/([0-9]+\.[0-9.]+)$/);
  const whole = ip4 ? text.replace(ip4[0], addressDigits(ip4[0]).replace(/(....)(....)/, '$1:$2')) : text;
  const [left, right] = whole.split('::').map((it) => (it ? it.split(':') : []));
  const groups = right ? [...left, ...Array(8 - left.length - right.length).fill('0'), ...right] : left;
  return groups.map((it) => it.padStart(4, '0')).join('').toLowerCase();
}

// The least and the greatest address of a network, in digits.
function networkOf(text) {
  const [address, length] = text.split('/');
  const digits = addressDigits(address);
  const bits = BigInt(digits.length * 4 - Number(length));
  const low = (BigInt(`0x${digits}`) >> bits) << bits;
  return [low, low + (1n << bits) - 1n].map((it) => it.toString(16).padStart(digits.length, '0'));
}

const portOf = (text) => numberOf(text).toString(16).padStart(4, '0');

const LINE = /^@[ \t]*(\S+)[ \t]+(\S+)[ \t]+(\w+)[ \t]*:[ \t]*(\w+)[ \t]+(\w+)[ \t]*:[ \t]*(\w+)[ \t]+(\w+)\/(\w+)(?:[ \t]|$)/;

// A rule: what it compares, and what ranks it; `ordinal` counts the rules of the file from 1.
function matchOf(text, ordinal, number) {
  const found = text.match(LINE);
  if (!found) throw new Error(`The page can’t read line ${number}, and the program does: ${text}`);
  const [, source, destination, ...numbers] = found;
  const [value, mask] = numbers.slice(4).map(numberOf);
  const ports = numbers.map(portOf);
  const given = Object.fromEntries([...text.matchAll(ATTRIBUTE)].map(([, name, it]) => [name, numberOf(it)]));
  return {
    family: source.includes(':') ? 6 : 4, sides: [networkOf(source), networkOf(destination), ports.slice(0, 2), ports.slice(2, 4)],
    protocol: [value & mask, mask], priority: given.pri ?? MOST_PRIORITY - ordinal, byPriority: 'pri' in given,
    categories: (given.cat ?? 0xffff) & 0xffff, userdata: given.data ?? ordinal, hasCategories: 'cat' in given,
  };
}

// The rules of a file that the program accepts, each with the number of its line, its text and what it compares.
export function rulesOf(bytes) {
  const rules = [];
  linesOf(bytes).forEach((line, at) => {
    const text = textOf(line).trim();
    if (text.startsWith('@')) rules.push({ number: at + 1, text: text.replace(/[ \t]+/g, ' '), match: matchOf(text, rules.length + 1, at + 1) });
  });
  return rules;
}

// The text of a line of a file, from 1 on.
export const lineText = (bytes, number) => textOf(linesOf(bytes)[number - 1] ?? new Uint8Array());

// The same rules, each with its number as userdata, so that rules of equal userdata are told apart; or with another one.
export function numbered(rules, data = (_, at) => at + 1) {
  const lines = rules.map((rule, at) => `${rule.text.replace(ATTRIBUTE, (it, name) => (name === 'cat' ? it : ''))} pri=${rule.match.priority} data=${data(rule, at)}\n`);
  return new TextEncoder().encode(lines.join(''));
}

// Protocols other than TCP, UDP and SCTP from a value on, so many as a number of bits has, each as a value and a mask.
function withoutPorts(value, bits) {
  const count = 1 << bits;
  if (![6, 17, 132].some((it) => it >= value && it < value + count)) return [[value, 256 - count]];
  return bits ? [...withoutPorts(value, bits - 1), ...withoutPorts(value + count / 2, bits - 1)] : [];
}

// Lines for the keys that no packet has, above all others: ports of protocols that have none.
export function ofNoPacket() {
  const lines = ['0.0.0.0/0', '::/0'].flatMap((any) => withoutPorts(0, 8).flatMap(([value, mask]) => ['1:65535 0:65535', '0:0 1:65535'].map(
    (ports) => `@${any} ${any} ${ports} ${value}/${mask} pri=${MOST_PRIORITY} data=0\n`)));
  return new TextEncoder().encode(lines.join(''));
}

// Two texts as one.
export function joined(...parts) {
  const whole = new Uint8Array(parts.reduce((sum, it) => sum + it.length, 0));
  let at = 0;
  for (const part of parts) {
    whole.set(part, at);
    at += part.length;
  }
  return whole;
}
