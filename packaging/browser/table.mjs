// SPDX-License-Identifier: BSD-3-Clause
// The linker puts a table for calls through pointers into each module, with the mark of 64-bit places, which Debian's wasm-opt
// and older engines don't know. The module has no such call, so the mark is taken off:
//
//     node table.mjs MODULE OUT
//
// A module with anything in its table is refused.
import { readFileSync, writeFileSync } from 'node:fs';

const TABLE = 4, ELEMENTS = 9, PLACES_OF_64_BITS = 4;
const [from, to] = process.argv.slice(2);
const bytes = readFileSync(from);

function refuse(why) {
  console.error(`table.mjs: ${why}`);
  process.exit(1);
}

// The number that stands there in LEB128, and the place after it.
function number(at) {
  for (let value = 0, shift = 0; ; shift += 7) {
    value += (bytes[at] & 127) * 2 ** shift;
    if (!(bytes[at++] & 128)) return [value, at];
  }
}

if (bytes.readUInt32BE(0) !== 0x0061736d) refuse(`${from} is no module`);
for (let at = 8; at < bytes.length;) {
  const kind = bytes[at], [size, body] = number(at + 1);
  if (kind === ELEMENTS) refuse('the module has functions that are called through pointers');
  if (kind === TABLE) {
    const [count, first] = number(body);
    if (count !== 1 || bytes[first] !== 0x70) refuse('the module has another table than the linker makes');
    bytes[first + 1] &= ~PLACES_OF_64_BITS;
  }
  at = body + size;
}
writeFileSync(to, bytes);
