// node page_heap.mjs CALLS: tries that many random calls of malloc, realloc and free of dist/bench.wasm: each block is aligned and inside the
// memory, no two overlap, and each keeps its bytes, also where it moves.
import { load } from "../../dist/bench.mjs";

const { malloc, realloc, free, memory } = await load(new URL("../../dist/bench.wasm", import.meta.url)), calls = Number(process.argv[2]);
const blocks = [], owner = new Map(); // every 16 bytes of memory belong to one block at most
let seed = 1;
const random = below => { seed = (Math.imul(seed, 1103515245) + 12345) >>> 0; return Math.floor(seed / 2 ** 32 * below); };
const sizeOf = () => random(20) ? random(200) : random(20) ? random(5000) : random(300_000);
const wrong = what => { console.log(what); process.exit(1); };

function own(block) {
  if (!block.at || block.at % 16 || block.at + block.size > memory.buffer.byteLength) wrong(`a block of ${block.size} at ${block.at}`);
  for (let at = block.at; at < block.at + Math.max(1, block.size); at += 16) {
    if (owner.has(at)) wrong(`blocks overlap at ${at}`);
    owner.set(at, block);
  }
  new Uint8Array(memory.buffer, block.at, block.size).fill(block.mark);
}

function drop(block, size = block.size) {
  const kept = new Uint8Array(memory.buffer, block.at, size);
  if (kept.some(byte => byte !== block.mark)) wrong(`a block of ${block.size} at ${block.at} lost its bytes`);
}

function unown(block) { for (let at = block.at; at < block.at + Math.max(1, block.size); at += 16) owner.delete(at); }

for (let call = 0; call < calls; call++) {
  const which = random(100);
  if (blocks.length < 300 && which < 50 || !blocks.length) {
    const size = sizeOf(), block = { at: malloc(size) >>> 0, size, mark: random(256) };
    own(block);
    blocks.push(block);
    continue;
  }
  const k = random(blocks.length), block = blocks[k];
  drop(block);
  unown(block);
  if (which < 70) {
    const size = sizeOf(), moved = { ...block, at: realloc(block.at, size) >>> 0, size: Math.min(size, block.size) };
    drop(moved);
    own(blocks[k] = { ...moved, size, mark: random(256) });
  } else {
    free(block.at);
    blocks[k] = blocks.at(-1);
    blocks.pop();
  }
}
if (malloc(2 ** 31 + 1)) wrong("a block of more than 2^31 bytes");
console.log(`${calls} calls, ${memory.buffer.byteLength} bytes of memory`);
