// The bench in WebAssembly, for Node and for pages: lines in, replies out, files in memory.
//
//     import { Bench } from "./bench.mjs";
//     const bench = await Bench.open({ undo: 16 });
//     bench.answer("a = arange <i4 0 6 1").text;      // "ok a <i4 (6,) new"
//     bench.answer("b = a[6]").code;                  // "E11"
//     bench.files.set("x.npy", bytes);                // a file for `load`
//     bench.files.get("y.npy");                       // the bytes of what `save` wrote, or undefined
//     bench.close();

const REFUSED = 1, NOTHING = 2, NO_MEMORY = 3, TOO_LONG = 4, NO_FILE = 5, NO_ROOM = 6;
const REFUSAL = /^no (E\d\d) (.*)$/;
const ASCII = new TextDecoder("latin1"), UTF8 = new TextEncoder();
const bytesOf = text => typeof text === "string" ? UTF8.encode(text) : text;

/** The calls of the program: from its bytes, from a compiled module, or from where it lies. */
export async function load(program) {
  if (program instanceof URL && program.protocol === "file:") program = await (await import("node:fs/promises")).readFile(program);
  else if (program instanceof URL) program = await (await fetch(program)).arrayBuffer();
  const made = await WebAssembly.instantiate(program, {});
  return (made.instance ?? made).exports;
}

/** The files that `load` reads and `save` writes, by name. */
class Files {
  constructor(bench) { this.bench = bench; }

  /** Stores a file. */
  set(name, bytes) {
    const { bench } = this;
    bench.lend(bytesOf(name), (at, length) => bench.lend(bytes, (front, size) => bench.call("put", at, length, front, size, front, 0n)));
    return this;
  }

  /** The bytes of a file; undefined where there is none. */
  get(name) { return this.bench.lend(bytesOf(name), (at, length) => this.bench.told("get", at, length)); }

  has(name) { return [...this.keys()].includes(name); }

  /** The names, in order. */
  * keys() {
    for (let name = new Uint8Array(0); ;) {
      name = this.bench.lend(name, (at, length) => this.bench.told("file", at, length));
      if (!name) return;
      yield ASCII.decode(name);
    }
  }

  [Symbol.iterator]() { return this.keys(); }
}

/** A bench with its names, its undo history and its files, until `close`. */
export class Bench {
  /** Opens a bench. `program` is where bench.wasm lies, or its bytes; `undo` is how many changes `undo` can take back, 0 to 64. */
  static async open({ undo = 16, program = new URL("./bench.wasm", import.meta.url) } = {}) { return new Bench(await load(program), undo); }

  constructor(calls, undo = 16) {
    if (!Number.isInteger(undo) || undo < 0 || undo > 64) throw new RangeError("undo is a number from 0 to 64");
    this.calls = calls;
    this.room = 1 << 16;
    [this.handle, this.length, this.buffer] = [8, 8, this.room].map(size => this.taken(size));
    this.files = new Files(this);
    this.call("open", BigInt(undo));
  }

  /** The reply to a line, a text or its bytes without the newline: whether it is accepted, its text, and of a refusal the code and its meaning. */
  answer(line) {
    if (!this.handle) throw new Error("the bench is closed");
    const bytes = bytesOf(line), status = this.lend(bytes.at(-1) === 13 ? bytes.subarray(0, -1) : bytes, (at, length) => this.call("answer", at, length));
    const text = status === NOTHING ? "" : ASCII.decode(this.told("reply"));
    const [, code = "", meaning = ""] = status === REFUSED ? REFUSAL.exec(text) : [];
    return { accepted: status !== REFUSED, code, meaning, text };
  }

  close() {
    if (!this.handle) return;
    this.call("close");
    for (const at of [this.handle, this.length, this.buffer]) this.calls.free(at);
    this.handle = 0;
  }

  // ---- memory: addresses are numbers, lengths are of 64 bits

  /** Makes a call of the program; the handle goes first, but at the opening. */
  call(name, ...words) {
    const call = this.calls[`bench_c_${name}`], status = name === "open" ? call(...words, this.handle) : call(this.handle, ...words);
    if (status === NO_MEMORY) throw new Error("out of memory");
    if (status === TOO_LONG) throw new RangeError("a file has at most 2^29 bytes");
    return status;
  }

  taken(size) {
    const at = this.calls.malloc(size);
    if (!at) throw new Error("out of memory");
    return at;
  }

  view(at, size) { return new Uint8Array(this.calls.memory.buffer, at >>> 0, size); }

  /** Hands bytes over for the time of a call. */
  lend(bytes, call) {
    const at = this.taken(bytes.length || 1);
    this.view(at, bytes.length).set(bytes);
    try { return call(at, BigInt(bytes.length)); } finally { this.calls.free(at); }
  }

  /** What a call copies out, with more room where it wants more; undefined where there is no such file. */
  told(name, ...words) {
    const status = this.call(name, ...words, this.buffer, BigInt(this.room), this.length);
    if (status === NO_FILE) return undefined;
    const length = Number(new DataView(this.calls.memory.buffer).getBigUint64(this.length >>> 0, true));
    if (status !== NO_ROOM) return this.view(this.buffer, length).slice();
    const more = this.taken(length);
    this.calls.free(this.buffer);
    [this.buffer, this.room] = [more, length];
    return this.told(name, ...words);
  }
}
