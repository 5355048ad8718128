// SPDX-License-Identifier: BSD-3-Clause
// What the program says of a list alone and of two lists, by way of the module.
import { isOfPacket, many } from './text.js';
import { captureOf } from './frames.js';
import { joined, lineText, numbered, ofNoPacket, rulesOf } from './rules.js';
import { partOf, ruleFile, search, TooLarge, words } from './parts.js';
import { Covers } from './covers.js';

// The exit codes of a table that is too large, and of memory that is too small.
const TOO_LARGE = 4;
const NO_MEMORY = 9;
// An audit counts words, and takes no memory for them.
const MOST_WORDS = 67108864;

// What ends the work: a file that is refused, as the page shows it.
export class Refused extends Error {
  constructor(role, file, { code, err }, line = null) {
    super(err);
    const said = err.replace(/^aclc: ((second )?rules: line|capture: record) \d+: /, '').replace(/^aclc: /, '');
    const kind = err.includes(' table too large') ? 'table too large' : code === 7 ? 'read fault' : said;
    const number = Number(err.match(/line (\d+)/)?.[1] ?? 0);
    const faults = number && line ? [{ line: number, kind, parts: [line(number), '', ''], sentence: '' }] : [];
    this.told = { role, file, code, message: err || `exit code ${code}`, kind, faults, sentence: null };
  }
}

// A list of rules that the program accepts, with its copy whose userdata are the rules' numbers. A list whose table is too
// large is looked at by itself, and `refused` says so where packets are asked about.
export function acceptedList(engine, role, { name, bytes }, asked) {
  const tried = engine.classify(bytes, captureOf(null), asked);
  const refused = tried.code ? new Refused(role, name, tried, (number) => lineText(bytes, number)) : null;
  if (refused && tried.code !== TOO_LARGE) throw refused;
  const rules = rulesOf(bytes);
  const hasCategories = rules.some((it) => it.match.hasCategories);
  return { name, bytes, rules, copy: numbered(rules), hasCategories, refused };
}

const linesIn = (out) => new TextDecoder().decode(out).split('\n').slice(0, -1);

// Takes what an audit tells: the rules that decide at some key of a packet, and each one's least key in each category.
// Whether some rules decide keys alone that no packet has.
function take(found, out) {
  const odd = new Set();
  for (const line of linesIn(out)) {
    const parts = line.split(' ');
    if (parts[1] !== 'rule' || parts[5] !== 'wins' || parts[4] === '0') continue;
    const [place, category, key] = [Number(parts[4]) - 1, Number(parts[6]), parts[8]];
    const own = found.least[place];
    if (!(category in own) || comesBefore(key, own[category])) own[category] = key;
    (isOfPacket(key) ? found.live : odd).add(place);
  }
  return [...odd].some((place) => !found.live.has(place));
}

const comesBefore = (one, other) => (isOfPacket(one) === isOfPacket(other) ? one < other : isOfPacket(one));

// Audits a list at once, or where its table is too large each family in parts.
function audited(engine, list, asked, found, progress) {
  const look = (content) => {
    const told = engine.audit(content, { ...asked, categories: list.hasCategories ? 16 : 1 });
    if (told.code === TOO_LARGE) throw new TooLarge(told.err);
    if (told.code === NO_MEMORY) throw new TooLarge('the memory of this page is too small');
    if (told.code) throw new Refused('list', list.name, told);
    return take(found, told.out);
  };
  try {
    if (look(list.copy)) look(joined(ofNoPacket(), list.copy));
    return;
  } catch (fault) {
    if (!(fault instanceof TooLarge)) throw fault;
  }
  for (const family of [4, 6]) {
    const own = list.rules.map(({ match }, place) => ({ ...match, place, part: partOf(match), data: place + 1 }))
      .filter((it) => it.family === family);
    const inPart = (part, rules, isOfPackets) => {
      progress(`Looking at each rule, in parts: IPv${family}, ${many(rules.length, 'rule')}`);
      return look(ruleFile(family, part, rules, isOfPackets));
    };
    const { left, parts } = search(family, own, inPart);
    found.left.push(...left.map((it) => ({ ...it, family })));
    found.parts += parts;
  }
}

function leastOf(keys) {
  const found = new Map();
  for (const [category, key] of Object.entries(keys)) found.set(key, (found.get(key) ?? 0) | (1 << category));
  return [...found];
}

// The entries of a list, with what its audit says of each.
export function listData(engine, list, asked, checksum, progress) {
  const found = { live: new Set(), least: list.rules.map(() => ({})), left: [], parts: 0 };
  audited(engine, list, { ...asked, maxWords: asked.maxWords ?? MOST_WORDS }, found, progress);
  const open = new Set(found.left.flatMap((it) => it.rules.map(({ place }) => place)));
  const entries = list.rules.map(({ number, text, match }, place) => ({ place: `line ${number}`, number, text, match,
    verdict: null, end: false, answer: match.userdata, dead: null, unknown: open.has(place) && !found.live.has(place),
    least: leastOf(found.least[place]) }));
  const covers = new Covers(entries);
  entries.forEach((entry, place) => {
    if (!found.live.has(place) && !entry.unknown) entry.dead = covers.of(place);
  });
  return { name: list.name, checksum, form: 'rules', none: 0, what: 'line', rules: entries.length,
    hasCategories: list.hasCategories, entries, chains: null, parts: found.parts || 1,
    notLooked: found.left.map(({ family, part, message }) => `${words(family, part)}: ${message}`) };
}

// The place of the rule of a list that decides a key in a category, or -1.
function deciderOf(engine, list, key, category, asked) {
  const told = engine.classify(list.copy, captureOf(key), { ...asked, categories: 16, marks: 1 });
  if (told.code) throw new Refused('list', list.name, told);
  const answer = linesIn(told.out)[0].split(' ')[2 + category];
  return answer === '-' ? -1 : Number(answer) - 1;
}

// What `compare` says of each family.
function families(engine, [old, list], asked) {
  const told = engine.compare(old, list, asked);
  if (told.code) return { fault: told.err };
  return { found: linesIn(told.out).map((line) => {
    const parts = line.split(' ');
    return { family: Number(parts[0].slice(2)), same: parts[1] === 'same', category: Number(parts[3] ?? 0), key: parts[5] };
  }) };
}

function textOf({ match: { family, sides, protocol, categories, userdata, priority, byPriority } }) {
  return JSON.stringify([family, sides, protocol, categories, userdata, byPriority ? priority : null]);
}

function onlyIn(one, other) {
  const texts = new Set(other.rules.map(textOf));
  return one.rules.map((_, place) => place).filter((place) => !texts.has(textOf(one.rules[place])));
}

// The same file with each rule's userdata written out, since a rule's default is its place.
const written = (list) => numbered(list.rules, (it) => it.match.userdata);

// What the page shows of two lists.
export function compareData(engine, old, list, asked) {
  const pair = [written(old), written(list)];
  const all = families(engine, pair, asked);
  const none = { families: [4, 6].map((family) => ({ family, same: null })), remark: null, onlyOld: onlyIn(old, list), onlyNew: onlyIn(list, old) };
  if (all.fault) return { ...none, notCompared: [all.fault] };
  const isOdd = (it) => !it.same && !isOfPacket(it.key);
  const again = all.found.some(isOdd) ? families(engine, pair.map((it) => joined(ofNoPacket(), it)), asked) : all;
  if (again.fault) return { ...none, notCompared: [again.fault] };
  const told = again.found.map((it, at) => (it.same ? { family: it.family, same: true, odd: isOdd(all.found[at]) }
    : { ...it, odd: isOdd(all.found[at]), decides: [old, list].map((its) => deciderOf(engine, its, it.key, it.category, asked)) }));
  return { ...none, families: told, notCompared: [] };
}
