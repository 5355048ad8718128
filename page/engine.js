// SPDX-License-Identifier: BSD-3-Clause
// The module of the proved code: files in, what the program prints and its exit code out.

const MESSAGE_ROOM = 4096;
const USUAL_WORDS = 2097152;
export const ROW = 38;

export class NoMemory extends Error {}

export class Engine {
  // Throws an Error where the browser doesn't run the module.
  static async load(bytes) {
    const { instance } = await WebAssembly.instantiate(bytes, {});
    return new Engine(instance.exports);
  }

  constructor(exports) {
    this.exports = exports;
    this.taken = [];
  }

  // How many bytes the module has of the browser.
  memory() {
    return this.exports.memory.buffer.byteLength;
  }

  take(size) {
    const at = this.exports.page_take(BigInt(Math.max(1, size)));
    if (!at) throw new NoMemory(`The browser gives this page no ${Math.ceil(size / (1 << 20))} MiB more, beside ${Math.ceil(this.memory() / (1 << 20))} MiB that it has.`);
    this.taken.push(at);
    return at;
  }

  // Puts bytes where the module reads them: their address and length.
  put(bytes) {
    const at = this.take(bytes.length);
    new Uint8Array(this.exports.memory.buffer, Number(at), bytes.length).set(bytes);
    return [at, BigInt(bytes.length)];
  }

  bytesAt(at, length) {
    return new Uint8Array(this.exports.memory.buffer, Number(at), length).slice();
  }

  numberAt(at) {
    return Number(new DataView(this.exports.memory.buffer).getBigUint64(Number(at), true));
  }

  // Does what takes memory, and gives all of it back.
  within(does) {
    try {
      return does();
    } finally {
      while (this.taken.length) this.exports.page_give(this.taken.pop());
    }
  }

  // Calls an export, again with more room if what is printed is longer.
  run(name, files, asked, room) {
    const called = this.within(() => {
      const lens = this.take(16);
      const [out, err] = [this.take(room), this.take(MESSAGE_ROOM)];
      const words = asked ? [this.putAsked(asked)] : [];
      const code = this.exports[name](...files.flatMap((it) => this.put(it)), ...words, out, BigInt(room), err, BigInt(MESSAGE_ROOM), lens);
      const [printed, said] = [this.numberAt(lens), this.numberAt(lens + 8n)];
      if (printed > room) return { more: printed };
      return { code, out: this.bytesAt(out, printed), err: new TextDecoder().decode(this.bytesAt(err, Math.min(said, MESSAGE_ROOM))).trim() };
    });
    return called.more ? this.run(name, files, asked, called.more) : called;
  }

  putAsked({ maxWords = USUAL_WORDS, categories = 1, stats = 0, marks = 0 }) {
    const content = new DataView(new ArrayBuffer(24));
    content.setBigUint64(0, BigInt(maxWords), true);
    content.setUint32(8, categories, true);
    content.setUint32(12, stats, true);
    content.setUint32(16, marks, true);
    return this.put(new Uint8Array(content.buffer))[0];
  }

  classify(rules, capture, asked = {}) {
    return this.run('page_classify', [rules, capture], asked, Math.max(1 << 16, capture.length >> 1) + 12 * (asked.categories ?? 1));
  }

  audit(rules, asked = {}) {
    return this.run('page_audit', [rules], asked, 4096 + 4 * rules.length);
  }

  compare(rules, second, asked = {}) {
    return this.run('page_compare', [rules, second], asked, 4096);
  }

  session(script) {
    return this.run('page_session', [script], null, 4096 + 4 * script.length);
  }

  // Of each of so many records 38 bytes: the class, and room for the key.
  records(capture, most) {
    return this.within(() => {
      const [count, rows] = [this.take(8), this.take(ROW * most)];
      const code = this.exports.page_records(...this.put(capture), rows, BigInt(ROW * most), count);
      if (code) throw new NoMemory('The memory of this page is too small for the packets of this capture.');
      const found = this.numberAt(count);
      return { count: found, rows: this.bytesAt(rows, ROW * found) };
    });
  }
}
