// A script as it runs, in a worker of the page: its lines come in, and what is shown of them goes out, as plain values.
import { Bench } from "./bench.mjs";
import { Trace, freeName, wordsOf } from "./trace.mjs";
import { bytesIn, cut, huesOf, said, seenAt, tablesOf } from "./picture.mjs";
import { figure, picture } from "./svg.mjs";
import { Hints } from "./hints.mjs";
import { Language } from "./language.mjs";
import { inNumPy } from "./numpy.mjs";

const SLICE = 25, EVERY = 1000, SOON = 200; // milliseconds of work in one go; lines, and milliseconds of work, after which the memory is kept once more
const MOST_KEPT = 64 << 20; // bytes of memory that are kept to go back to, and of the bench in which hints are tried
const MOST_CELLS_TOLD = 200; // of a buffer, in words
const isSilent = line => /^\s*(#|$)/.test(line); // a blank line, or a comment

export class Script {
  /** `module` is the program, `tables` are those of LANGUAGE, and `tell` is called with the number of each command before it runs. */
  constructor(module, tables, undo, tell = () => {}) {
    Object.assign(this, { module, undo, tell, language: new Language(tables), files: new Map(), generation: 0, lines: [] });
    this.hints = new Hints(this.language, isBroken => new Bench(this.spare(isBroken), 0));
    this.restart();
  }

  /** The program in which hints are tried: another one where the last one broke, or has grown large. */
  spare(isBroken) {
    if (!this.other || isBroken || this.other.memory.buffer.byteLength > MOST_KEPT) this.other = new WebAssembly.Instance(this.module, {}).exports;
    return this.other;
  }

  restart() {
    this.calls = new WebAssembly.Instance(this.module, {}).exports;
    this.trace = new Trace(undo => this.opened(undo), { undo: this.undo, text: this.lines.join("\n") });
    Object.assign(this, { moments: [], saved: [], kept: [], fault: "", hues: new Map(), colours: 0 });
  }

  opened(undo) {
    const bench = new Bench(this.calls, undo);
    for (const [name, bytes] of this.files) bench.files.set(name, bytes);
    return bench;
  }

  /** The files that `load` reads are others: all lines run again. */
  setFiles(files) {
    this.files = new Map(files);
    this.fault = "other files";
  }

  /** Keeps the memory as it is before the next line. Of all that is kept, the one that its neighbours replace best makes room. */
  keep() {
    const { trace, moments: { length: count }, calls: { memory } } = this;
    this.keptAt = performance.now();
    if (memory.buffer.byteLength > MOST_KEPT || this.kept.at(-1)?.count === count) return;
    const rooms = [trace.bench, trace.second].map(({ buffer, room }) => ({ buffer, room })), { state, kept, focus, made, isBlind } = trace;
    this.kept.push({ memory: new Uint8Array(memory.buffer).slice(), rooms, count, hues: this.hues.size, held: { state, kept: [...kept], focus, made, isBlind, lines: count } });
    while (this.kept.reduce((sum, each) => sum + each.memory.length, 0) > MOST_KEPT) {
      const spans = this.kept.slice(0, -1).map((_, k) => this.kept[k + 1].count - (this.kept[k - 1]?.count ?? 0));
      this.kept.splice(spans.indexOf(Math.min(...spans)), 1);
    }
  }

  /** Goes back to what was kept last before a line, or to nothing. */
  back(line) {
    while (this.kept.length && this.kept.at(-1).count > line) this.kept.pop();
    const last = this.kept.at(-1), { trace } = this;
    if (!last) { this.restart(); return; }
    if (this.calls.memory.buffer.byteLength > last.memory.length) this.shrink(last.memory.length);
    new Uint8Array(this.calls.memory.buffer).set(last.memory);
    for (const [k, bench] of [trace.bench, trace.second].entries()) Object.assign(bench, last.rooms[k], { calls: this.calls });
    Object.assign(trace, last.held, { kept: [...last.held.kept] });
    this.moments.length = last.count;
    for (const key of [...this.hues.keys()].slice(last.hues)) this.hues.delete(key);
    this.saved = this.saved.filter(({ line: of }) => of < last.count);
  }

  /** Another program with so much memory: that of one never becomes less. */
  shrink(size) {
    this.calls = new WebAssembly.Instance(this.module, {}).exports;
    this.calls.memory.grow(Math.max(0, size - this.calls.memory.buffer.byteLength) >> 16);
  }

  /** Runs a script: the first lines of the one before, and then others. It runs from the line that has changed, pauses when the wanted line
   *  has run, so that it can be asked for, and stops before `hold`. Another call ends this one. */
  async run(same, lines, hold = Infinity, wanted = -1) {
    const mine = ++this.generation, end = Math.min(same + lines.length, hold);
    this.lines = [...this.lines.slice(0, same), ...lines];
    if (this.fault) this.restart();
    else if (same < this.moments.length) this.back(same);
    if (lines.some(line => line.includes(this.trace.free))) this.trace.free = freeName(this.lines.join("\n"));
    for (let until = performance.now() + SLICE; this.moments.length < end && !this.fault;) {
      this.step(same);
      if (performance.now() < until && this.moments.length !== wanted + 1) continue;
      await new Promise(done => setTimeout(done));
      if (mine !== this.generation) return null;
      until = performance.now() + SLICE;
    }
    return { count: this.moments.length, fault: this.fault, saved: [...new Set(this.saved.map(({ name }) => name))] };
  }

  step(same) {
    const { length: count } = this.moments;
    if (count === same || count && (count % EVERY === 0 || performance.now() - this.keptAt > SOON)) this.keep();
    if (!isSilent(this.lines[count])) this.tell(count);
    try {
      const moment = this.trace.step(this.lines[count]);
      this.moments.push(moment);
      if (moment.before !== moment.after) huesOf([moment], this.hues);
      this.colours = Math.max(this.colours, moment.before.names.size + 1);
      if (moment.reply.text.startsWith("ok save ")) this.saved.push({ line: count, name: /"(.*)"/.exec(moment.line)[1] });
    } catch (fault) {
      this.fault = `The program stopped in line ${count + 1}${fault instanceof WebAssembly.RuntimeError ? " (its stack overflowed)" : `: ${fault.message}`}. It starts again with the next change of the script.`;
    }
  }

  /** What is said beside a reply, and the lines that are offered. */
  hint(moment) {
    return moment.reply.accepted ? { text: this.language.oneItem(moment), offered: [] } : this.language.hint(moment, this.hints, this.trace.bench.files);
  }

  /** What stands beside some lines: of each whether it is accepted, its reply in short, where it stops being a command, and the colours of its names. */
  rows(first, last) {
    const rows = this.moments.slice(first, last).map(moment => {
      const { reply: { accepted, text, code, meaning }, before, after } = moment, { at, text: hint, offered } = this.hint(moment), hues = {};
      for (const word of moment.words) hues[word] = this.hues.get(`${word} ${(after.names.get(word) ?? before.names.get(word)).buffer}`);
      const told = accepted ? text : [`${code} ${meaning}`, offered.length ? `write ${offered.join("; ")}` : hint].filter(Boolean).join(": ");
      return { accepted, told: cut(told.replace(/\s*\n\s*/g, " "), 160), at, hues };
    });
    return { rows, colours: this.colours };
  }

  /** A line and its picture, in so much room. */
  view(line, room, allNames, withCells) {
    const moment = this.moments[line];
    if (!moment) return null;
    const { reply: { accepted, text }, before, number } = moment, { text: hint, offered } = this.hint(moment), { tables, hidden } = tablesOf(moment, this.hues, allNames);
    const words = text ? said(moment) : moment.line.trim() ? "A comment has no reply." : "";
    return { line, number, text: moment.line, reply: { accepted, text: cut(text, 4000) }, hint, offered, words, names: [...before.names.keys()], colours: this.colours,
      pictures: tables.map(table => figure(table, room)).join("") + (hidden ? `<p>${hidden} more buffers are not drawn.</p>` : ""),
      isFolded: tables.some(({ caption }) => caption.includes("more names")), cells: withCells ? this.cells(moment, tables) : [] };
  }

  /** The cells of the line's buffers in words, for a screen reader: of each buffer a caption and rows of texts. */
  cells(moment, tables) {
    return tables.filter(({ rows }) => rows[0].label === "byte").map(({ buffer: number, rows, caption }) => {
      const [now, old] = ["now", "old"].map(look => rows.filter(row => row.look === look).flatMap(({ boxes }) => boxes));
      const made = now.filter(({ byte, look }) => byte !== undefined && look !== "pad").slice(0, MOST_CELLS_TOLD).map(box => {
        const from = moment.written.has(number) ? moment.moved.get(box.byte) : undefined, before = old.find(each => each.byte === box.byte && each.look === "x");
        return [number, box.byte, box.text.split("→").at(-1), box.was ?? before?.text ?? "", from ? `byte ${from.byte} of buffer ${from.buffer}` : "", seenAt(moment, number, box.byte).map(({ operand }) => operand).join(", ")];
      });
      return { caption, rows: made };
    });
  }

  /** What a byte of a buffer is for each name that sees it. */
  light(line, number, byte) {
    const moment = this.moments[line], buffer = moment.after.buffers.get(number) ?? moment.before.buffers.get(number), { kind } = buffer;
    const leaf = kind.leaves.find(each => each.at <= byte % kind.size && byte % kind.size < each.at + each.size), begin = leaf ? byte - byte % kind.size + leaf.at : byte, seen = seenAt(moment, number, begin);
    const old = moment.before.buffers.get(number)?.values.get(begin), now = moment.after.buffers.get(number)?.values.get(begin), from = moment.written.has(number) ? moment.moved.get(begin) : undefined;
    const bytes = leaf ? bytesIn(leaf, now ?? old) : "", was = old !== undefined && now !== undefined && old !== now ? `, before ${old}` : "";
    const names = seen.map(({ operand, value }) => `${operand} is ${value}`).join(", ") || "no name sees it";
    return `Byte ${begin} of buffer ${number}${bytes && ` (${bytes})`}${was}${from ? `, from byte ${from.byte} of buffer ${from.buffer}` : ""}: ${names}`;
  }

  /** The line that shows most: the last one that writes to memory that several names see. */
  telling() {
    const found = this.moments.findLastIndex(({ written, after }) => [...written.keys()].some(number => after.inside(number).length > 1));
    return found < 0 ? this.moments.length - 1 : found;
  }

  file(name) { return this.trace.bench.files.get(name); }
  numpy() { return inNumPy(this.moments); }
  svg(line) { const moment = this.moments[line]; return picture(moment.line, tablesOf(moment, this.hues).tables, said(moment)); }
}

/** Answers the calls of a page, in a worker: a number, a method and its arguments come in; the number and the result go out, and the number
 *  of each command before it runs. */
export function serve() {
  let script;
  globalThis.onmessage = async ({ data: [id, method, ...given] }) => {
    try {
      if (method === "open") script = new Script(...given, line => postMessage(line));
      postMessage([id, method === "open" ? null : await script[method](...given)]);
    } catch (fault) { postMessage([id, null, String(fault)]); }
  };
}
