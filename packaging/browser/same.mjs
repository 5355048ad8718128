// SPDX-License-Identifier: BSD-3-Clause
// Runs commands by the module and by the program, over files that stand in the repository, drawn ones and damaged ones, and
// compares each line, message and code:
//
//     node same.mjs PROGRAM MODULE TOP
//
// TOP is the repository. The module is called by the engine of the page. The keys of drawn captures are compared with those that
// the packets were made of, and the classes of every capture with the lines of classify. Status 0: all of it is the same.
import { mkdtempSync, readFileSync, readdirSync, rmSync, statSync, writeFileSync } from 'node:fs';
import { spawnSync } from 'node:child_process';
import { tmpdir } from 'node:os';
import { join, resolve } from 'node:path';
import { pathToFileURL } from 'node:url';
import { capture as drawnCapture, damaged, draws, firewall as drawnFirewall, pick, rules as drawnRules } from './drawn.mjs';

const COMMANDS = 1000;
const CLASSES = { ip4: 4, ip6: 6, other: 0, short: 1 };
const [program, module, top] = process.argv.slice(2).map((it) => resolve(it));
const { Engine, NoMemory, ROW } = await import(pathToFileURL(join(top, 'page/engine.js')));
const engine = await Engine.load(readFileSync(module));
const room = mkdtempSync(join(tmpdir(), 'same-'));
process.on('exit', () => rmSync(room, { recursive: true }));
const draw = draws(20261129);
const counts = {};

function fail(what, command) {
  console.error(`same.mjs: ${what}: ${command.words.join(' ')} (command ${command.number})`);
  process.exit(1);
}

// The files of the repository with these endings, which aren't too large to be run often.
function shipped(...endings) {
  const found = readdirSync(join(top, 'examples'), { recursive: true }).map((it) => join(top, 'examples', it));
  return found.filter((it) => endings.some((end) => it.endsWith(end)) && statSync(it).isFile() && statSync(it).size < 1e6).sort().map((it) => readFileSync(it));
}

const lists = shipped('.rules'), captures = shipped('.pcap', '.pcapng'), scripts = shipped('.script');
const list = () => pick(draw, [() => pick(draw, lists), () => drawnRules(draw, draw(60)), () => damaged(draw, pick(draw, lists)), () => drawnRules(draw, draw(8))])();
const drawnRows = new Map();

function captureFile() {
  if (draw(3) === 0) return pick(draw, captures);
  const { bytes, rows } = drawnCapture(draw, draw(150));
  if (draw(3) === 0) return damaged(draw, draw(2) ? bytes : pick(draw, captures));
  drawnRows.set(bytes, rows);
  return bytes;
}

// What a command may be asked for: mostly what is lawful.
const options = () => ({
  categories: pick(draw, [1, 1, 1, 1, 4, 4, 8, 8, 12, 16, 16, 3]),
  maxWords: pick(draw, [2097152, 2097152, 2097152, 2097152, 2097152, 2097152, 5, 1000, 0, 134217728]),
  stats: draw(4) === 0,
  marks: draw(2) === 0,
});
const numbers = (asked) => [`categories=${asked.categories}`, `max-words=${asked.maxWords}`];
const switches = (asked) => [...(asked.stats ? ['stats=on'] : []), ...(asked.marks ? ['marks=on'] : [])];

// A command as the program's words, its files, and the call of the engine that stands for it.
function command() {
  const asked = options(), first = list();
  const kinds = {
    classify: () => {
      const capture = captureFile();
      return { words: ['rules', 'capture', ...numbers(asked), ...switches(asked)], files: { rules: first, capture }, answer: () => engine.classify(first, capture, asked) };
    },
    audit: () => ({ words: ['rules', ...numbers(asked)], files: { rules: first }, answer: () => engine.audit(first, asked) }),
    compare: () => {
      const second = draw(3) ? list() : first;
      return { words: ['rules', 'second', numbers(asked)[1]], files: { rules: first, second }, answer: () => engine.compare(first, second, asked) };
    },
    session: () => {
      const script = draw(2) ? pick(draw, scripts) : damaged(draw, pick(draw, scripts));
      return { words: ['script'], files: { script }, answer: () => engine.session(script) };
    },
  };
  const kind = pick(draw, ['classify', 'classify', 'classify', 'classify', 'audit', 'audit', 'compare', 'compare', 'session']);
  const made = kinds[kind]();
  return { ...made, kind, words: [kind, ...made.words] };
}

// What the program prints, its message and its code.
function byProgram({ words, files }) {
  for (const [name, bytes] of Object.entries(files)) writeFileSync(join(room, name), bytes);
  const ran = spawnSync(program, words, { cwd: room, maxBuffer: 1 << 30 });
  if (ran.error || ran.signal) throw ran.error ?? new Error(`the program ended by ${ran.signal}`);
  return { code: ran.status, out: ran.stdout, err: ran.stderr.toString() };
}

// The rows of a capture's records have the classes that classify told, and the keys of which the packets were made.
function compareRows(given, lines) {
  const told = lines.toString().split('\n').filter((it) => /^[0-9]+ (ip4|ip6|other|short)/.test(it)).map((it) => CLASSES[it.split(' ')[1]]);
  const { count, rows } = engine.records(given.files.capture, told.length + 1);
  if (count !== told.length) fail(`${count} records have a row, and ${told.length} a line`, given);
  if (told.some((it, at) => rows[ROW * at] !== it)) fail('a record has another class', given);
  const made = drawnRows.get(given.files.capture);
  if (made && Buffer.compare(Buffer.from(rows), Buffer.from(made))) fail('a record has another key', given);
}

for (let number = 1; number <= COMMANDS; number++) {
  const given = { ...command(), number }, theirs = byProgram(given), ours = given.answer();
  if (ours.code !== theirs.code) fail(`the code is ${ours.code}, and that of the program ${theirs.code}`, given);
  if (ours.err !== theirs.err.trim()) fail(`the message is ${JSON.stringify(ours.err)}, and that of the program ${JSON.stringify(theirs.err)}`, given);
  if (Buffer.compare(Buffer.from(ours.out), theirs.out)) fail('another line', given);
  if (given.kind === 'classify' && (ours.code === 0 || ours.code === 5)) compareRows(given, theirs.out);
  const name = `${given.kind} with code ${ours.code}`;
  counts[name] = (counts[name] ?? 0) + 1;
}

// Want of memory is told, and the next command is answered.
function wantOfMemory() {
  const { bytes } = drawnCapture(draw, 2000), first = drawnRules(draw, 50);
  const whole = engine.classify(first, bytes);
  let told = 0;
  for (let end = 4200000; end < 9000000; end += 60000) {
    engine.exports.heap_limit(BigInt(end));
    try {
      const { code, out } = engine.classify(first, bytes);
      if (code === 9) told++;
      else if (code !== whole.code || Buffer.compare(out, whole.out)) throw new Error(`code ${code} with a limit of ${end}`);
    } catch (fault) {
      if (!(fault instanceof NoMemory)) throw fault;
      told++;
    }
  }
  engine.exports.heap_limit(0n);
  if (told === 0) throw new Error('memory never ran out');
  if (Buffer.compare(engine.classify(first, bytes).out, whole.out)) throw new Error('the command after want of memory has another line');
  if (engine.exports.heap_used() !== 0n) throw new Error('memory is lost');
  return told;
}

// How many milliseconds of a processor 100,000 packets by 1,000 rules take, once all is warm.
function speed() {
  const { bytes } = drawnCapture(draw, 100000), first = drawnFirewall(draw, 1000), times = [];
  for (let turn = 0; turn < 5; turn++) {
    const begin = process.cpuUsage(), { code } = engine.classify(first, bytes);
    const { user, system } = process.cpuUsage(begin);
    if (code !== 0) throw new Error(`code ${code} in the trial of its speed`);
    times.push((user + system) / 1000);
  }
  return Math.min(...times);
}

for (const name of Object.keys(counts).sort()) console.log(`${String(counts[name]).padStart(5)} ${name}`);
console.log(`same: ${COMMANDS} commands; want of memory was told ${wantOfMemory()} times`);
console.log(`same: 100,000 packets by 1,000 rules in ${speed().toFixed(0)} ms of a processor; the module has ${(engine.memory() / 1048576).toFixed(0)} MiB`);
