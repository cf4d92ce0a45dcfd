// Tries the heap that a page supplies: blocks at random, each filled with a byte of its own, which must stand until it is given up.
// usage: node test_heap.mjs PAGE_FOLDER/library_host.js
import { readFileSync } from "node:fs";
import { runInThisContext } from "node:vm";

/** @type {any} */
let env;
/** @type {any} */
let memory;
// The host makes an instance of a module; here it gets a memory alone.
function Instance(_module, imports) {
  env = imports.env;
  memory = new WebAssembly.Memory({ initial: 1 });
  return { exports: { memory, __heap_base: { value: 1000n } } };
}
Object.assign(WebAssembly, { Instance });
const start = runInThisContext(`(() => { ${readFileSync(process.argv[2], "utf8")}; return startInstance; })()`);
start(null, 2 ** 26);
const TO = 16n;
const told = () => {
  const view = new DataView(memory.buffer);
  return view.getBigUint64(16, true) === 0n ? null : view.getBigUint64(24, true);
};
let seed = 1;
const random = (below) => ((seed = (Math.imul(seed, 1103515245) + 12345) >>> 0), (seed >>> 8) % below);
const sizeOf = () => (random(50) === 0 ? random(300000) : random(400)) + 1;
const blocks = [];
const fill = (block) => new Uint8Array(memory.buffer, Number(block.at), block.size).fill(block.byte);
const stands = (block, count) => new Uint8Array(memory.buffer, Number(block.at), count).every((byte) => byte === block.byte);
let refused = 0;
let wrong = 0;
const judge = (isRight, what) => {
  if (!isRight && wrong++ < 10) console.log(`FAILED ${what}`);
};
for (let turn = 0; turn < 200000; turn++) {
  const kind = random(10);
  if (kind < 5 || blocks.length === 0) {
    const block = { at: null, size: sizeOf(), byte: random(256) };
    env.rattle_alloc(TO, BigInt(block.size), 16n);
    block.at = told();
    if (block.at === null) { refused++; continue; }
    judge(block.at % 16n === 0n && block.at >= 1000n && Number(block.at) + block.size <= memory.buffer.byteLength, "a place");
    fill(block);
    blocks.push(block);
    continue;
  }
  const place = random(blocks.length);
  const block = blocks[place];
  judge(stands(block, block.size), "a block before its end");
  if (kind < 7) {
    const size = sizeOf();
    const kept = Math.min(size, block.size);
    env.rattle_realloc(TO, block.at, BigInt(kept), BigInt(size), 16n);
    if (told() === null) { refused++; judge(stands(block, block.size), "a block that could not grow"); continue; }
    block.at = told();
    judge(stands(block, kept), "a block that was moved");
    block.size = size;
    fill(block);
  } else {
    env.rattle_dealloc(block.at);
    blocks[place] = blocks.at(-1);
    blocks.pop();
  }
}
for (const [bytes, align] of [[-1n, 16n], [-(2n ** 63n), 16n], [2n ** 62n, 16n], [8n, 32n], [8n, -1n]]) {
  env.rattle_alloc(TO, bytes, align);
  judge(told() === null, `${bytes} bytes at ${align} are refused`);
}
for (const block of blocks) judge(stands(block, block.size), "a block at the end");
console.log(`${blocks.length} blocks stand, ${refused} requests were refused, ${memory.buffer.byteLength} bytes, ${wrong} failed`);
process.exitCode = wrong === 0 ? 0 : 1;
