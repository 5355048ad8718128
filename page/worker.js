// SPDX-License-Identifier: BSD-3-Clause
// The module at work, beside the page: one message begins it, and messages tell how far it is.
import { Engine } from './engine.js';
import { assemble } from './assemble.js';

async function work({ module, files, made }) {
  const engine = await Engine.load(module);
  const progress = (text) => postMessage({ progress: text, memory: engine.memory() });
  const { told, columns } = await assemble(engine, files, made, progress);
  const buffers = [...new Set(Object.values(columns).map((it) => it.buffer))];
  postMessage({ told, columns, memory: engine.memory() }, buffers);
}

addEventListener('message', (event) => {
  work(event.data).catch((fault) => postMessage({ fault: fault.message || String(fault) }));
});
