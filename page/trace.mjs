// What a script does to memory, line by line, as the bench alone tells it.
//
// The script runs in a bench of its own. Each line that changes something is sent to a second one too, where questions are
// asked: which items a line writes, what an array has at some places. All that is tried there is undone.

export const MOST_CELLS = 256; // items of a buffer that are drawn
const FEW_CELLS = 64; // of a buffer that has more of them
export const MOST_UNDO = 56; // of the 64 states that the second bench keeps, the others are for what is tried
const SIDE = 16; // rows, and columns, of a grid
const SLICES = 4; // of an array of three axes
const AT_ONCE = 1 << 16; // bytes of items that are printed in one go
const MOST_PLACES = 4096; // of the values that a line writes, those that are looked at
const ENDS = 8; // of the items of a name that came, or that were written, those around which a long buffer is drawn
const NO_ROOM_LEFT = "out of memory"; // as bench.mjs says it
const WORD = /[A-Za-z_]\w*/g;
const READ = /(?<![\w'"])[A-Za-z_]\w*/g; // the words that are not in quotes
const NEEDS_ARRAYS = /^E(0[34589]|1\d|2[0-5]|3[23])$/; // the refusals of which more is said by the arrays of the line
const MOST_KNOWN = 12; // names of a refused line that are looked at
export const MOST_OWN = 2000; // items of an array that are read for it
const ODD = /[^\t -~]/g;
const BOUND = /^ok (\w+) .* (new|view|copy)(?: rest \d+)?$/;
const INFO = /^info \w+ (.*) (\([\d, ]*\)) strides (\([-\d, ]*\)) at (\d+) order ([CF]+|-) write (yes|no)$/;
const TOKEN = /b'(?:[^'\\]|\\.)*'|[()]|[-\w]+/g;
const MEMBER = /(T\{)|(?:(\})|[<>]?(\d*)([?bBhHiIqQsx]))(?::([^:]*):)?/g;
const SIZES = { "?": 1, b: 1, h: 2, i: 4, q: 8 };
const WRITES = /^\s*(?:set|upd)\s+([A-Za-z_]\w*\[[^\]]*\])/; // the items that a line writes
const SOURCE = /^\s*set\s[^=]*=\s*([A-Za-z_]\w*(?:\[[^\]]*\])?)\s*$/; // those that it reads

export const product = numbers => numbers.reduce((left, right) => left * right, 1);
export const range = (from, to) => Array.from({ length: Math.max(0, to - from) }, (_, k) => from + k);
export const wordsOf = text => text.match(WORD) ?? [];
export const wordsRead = text => [...new Set(text.match(READ) ?? [])];
const numbersIn = text => (text.match(/-?\d+/g) ?? []).map(Number);
const remainder = (value, by) => ((value % by) + by) % by;

/** The numbers below count. Where they are more than most, fewer: those at both ends, and those around what is looked at. */
export function around(count, most, focus = [], fewer = most) {
  if (count <= most) return range(0, count);
  most = fewer;
  const edge = focus.length ? 2 : most >> 1, taken = new Set([...range(0, edge), ...range(count - edge, count)]);
  for (let reach = 0; focus.length && taken.size < most && reach < most; reach++) {
    for (const at of focus) for (const near of [at - reach, at + reach]) if (near >= 0 && near < count && taken.size < most) taken.add(near);
  }
  return [...taken].sort((left, right) => left - right);
}

/** The items of a printed array, in C order: texts, and lists of them for records. */
export function itemsOf(text) {
  const open = [[]];
  for (const [token] of text.matchAll(TOKEN)) {
    if (token === "(") open.push([]);
    else if (token === ")") { const made = open.pop(); open.at(-1).push(made); }
    else open.at(-1).push(token);
  }
  return open[0];
}

/** An item as the program prints it; `?` where it is not known. */
export function literal(item) {
  return Array.isArray(item) ? `(${item.map(literal).join(", ")}${item.length === 1 ? "," : ""})` : item ?? "?";
}

/** A name that a script does not have. */
export function freeName(text) {
  const taken = new Set(wordsOf(text));
  return range(0, taken.size + 1).map(k => `_${k}`).find(name => !taken.has(name));
}

/** The reply to a line that is to be accepted. */
function ask(bench, line) {
  const reply = bench.answer(line);
  if (!reply.accepted) throw new Error(`${reply.text}: ${line}`);
  return reply.text;
}

/** What `info` tells of a name. */
export function arrayOf(bench, name) {
  const [, type, shape, strides, at, order, write] = INFO.exec(ask(bench, `info ${name}`));
  return { name, type, shape: numbersIn(shape), strides: numbersIn(strides), at: Number(at), order, writable: write === "yes" };
}

/** An element type as it lies in memory: its bytes; the fields of a record, each with its first byte; and its values, each with its field and type. */
export class Kind {
  constructor(text, size, fields = []) {
    Object.assign(this, { text, size, fields });
    const inner = fields.flatMap(({ at, name, kind }) => kind.leaves.map(leaf => ({ ...leaf, at: at + leaf.at, field: name + (leaf.field && `.${leaf.field}`) })));
    this.leaves = inner.length ? inner : [{ at: 0, size, field: "", type: text }];
  }

  /** The values of an item that begins at a byte, each with its own byte. */
  * spread(item, byte) {
    if (!this.fields.length) yield [byte, item];
    for (const [k, { at, kind }] of this.fields.entries()) yield* kind.spread(item[k], byte + at);
  }

  /** The item whose values stand at a byte. */
  item(values, byte) {
    return this.fields.length ? this.fields.map(({ at, kind }) => kind.item(values, byte + at)) : values.get(byte);
  }
}

/** A type as replies have it: a type string, or the format text of a record, in which every byte has its member. */
export function kindOf(text) {
  if (!text.startsWith("T{")) return new Kind(text, Number(text.slice(2)));
  const open = [{ begin: 0, size: 0, fields: [] }]; // the records around a member; the first holds the whole
  for (const { 1: opens, 2: closes, 3: count, 4: letter, 5: name = "", 0: member, index } of text.matchAll(MEMBER)) {
    if (opens) { open.push({ begin: index, size: 0, fields: [] }); continue; }
    const ended = closes ? open.pop() : null, outer = open.at(-1);
    if (letter === "x") { outer.size += Number(count || 1); continue; }
    const kind = ended ? new Kind(text.slice(ended.begin, index + 1), ended.size, ended.fields)
      : new Kind(member.split(":")[0], letter === "s" ? Number(count || 1) : SIZES[letter.toLowerCase()]);
    outer.fields.push({ at: outer.size, name, kind });
    outer.size += kind.size;
  }
  return open[0].fields[0].kind;
}

/** What a name is bound to: an array in a buffer. */
export class Bound {
  constructor(array, buffer, kind) {
    const { shape, strides, at } = array;
    // The axes along which items lie apart, each with what a step adds to an item's number; the longest stride first.
    const apart = range(0, shape.length).filter(axis => strides[axis]);
    const axes = apart.map((axis, k) => ({ axis, stride: strides[axis], length: shape[axis], weight: product(apart.slice(k + 1).map(later => shape[later])) }));
    Object.assign(this, { array, buffer, kind, axes: axes.sort((left, right) => Math.abs(right.stride) - Math.abs(left.stride)) });
    this.items = product(shape);
    this.count = this.items && product(axes.map(({ length }) => length)); // of the items that have places of their own
    this.low = at + axes.reduce((sum, { stride, length }) => sum + (stride < 0 ? stride * (length - 1) : 0), 0);
  }

  /** Where an item is, by its number in C order. */
  place(number) {
    let rest = number, byte = this.array.at;
    for (let axis = this.array.shape.length - 1; axis >= 0; axis--) {
      byte += rest % this.array.shape[axis] * this.array.strides[axis];
      rest = Math.floor(rest / this.array.shape[axis]);
    }
    return byte;
  }

  /** The index of the item that begins at a byte, or null. Along an axis of stride 0 it is the first of them. */
  index(byte) {
    const found = this.array.shape.map(() => 0);
    let rest = byte - this.low;
    for (const { axis, stride, length } of this.axes) { // the shorter strides lead to less than a step of the longest
      const step = Math.max(0, Math.min(Math.floor(rest / Math.abs(stride)), length - 1));
      rest -= step * Math.abs(stride);
      found[axis] = stride > 0 ? step : length - 1 - step;
    }
    return rest || !this.count ? null : found;
  }

  /** The number of the item at a byte, in the order in which the items that have places of their own are read first, or null. */
  number(byte) {
    const index = this.index(byte);
    return index && this.axes.reduce((sum, { axis, weight }) => sum + weight * index[axis], 0);
  }

  /** Of the items in those of `size` bytes of its buffer that begin at `starts`: the byte and the number, in order. */
  numbers(starts, size) {
    const found = starts.map(start => start + remainder(this.array.at, size)).map(byte => [byte, this.number(byte)]).filter(([, number]) => number !== null);
    return found.sort((left, right) => left[1] - right[1]);
  }

  /** The items of an array of two axes in rows and columns, as far as they are drawn; of three axes those of its first slices. */
  grids(focus = []) {
    const { shape, strides, at } = this.array, [down, right] = strides.slice(-2);
    if (shape.length < 2 || shape.length > 3 || !this.count) return [];
    const seen = focus.map(byte => this.index(byte)).filter(Boolean), along = (axis, most) => around(shape.at(axis), most, [...new Set(seen.map(index => index.at(axis)))]);
    const [rows, columns] = [along(-2, SIDE), along(-1, SIDE)];
    const slices = shape.length === 3 ? along(0, SLICES).map(k => [`[${k}]`, at + k * strides[0]]) : [["", at]];
    return slices.map(([part, begin]) => ({ part, rows, columns, places: rows.map(row => columns.map(column => begin + row * down + column * right)) }));
  }
}

/** A stretch of memory: items one after another, and those of their values that were looked at, by their bytes. `printed` has the items of arrays in it. */
class Memory {
  constructor(kind, count, values = new Map()) { Object.assign(this, { kind, count, values, printed: new Map() }); }

  /** Where the items begin that are drawn: fewer of long ones and of those with many values. */
  starts(focus = []) {
    const most = Math.min(MOST_CELLS, Math.floor(AT_ONCE / this.kind.size), Math.floor(4 * MOST_CELLS / this.kind.leaves.length));
    const cells = [...new Set(focus.map(byte => Math.floor(byte / this.kind.size)))];
    return around(this.count, Math.max(8, most), cells, Math.max(8, Math.min(most, FEW_CELLS))).map(k => k * this.kind.size);
  }
}

const NOTHING_DONE = new Map();

/** Names in their order, and buffers by their numbers. */
class State {
  constructor(names = new Map(), buffers = new Map()) { Object.assign(this, { names, buffers }); }

  inside(number) { return [...this.names].filter(([, bound]) => bound.buffer === number); }
}

/** A line of the script with its reply; the states before and after it; for each buffer the bytes around which it is drawn; the bytes
 *  of the values that the line wrote; where those came from that it moved; the number of the line that it took back; of a refused line the
 *  arrays that it names, and the line as it was typed; and whether there was no room to find these out. */
export class Moment {
  constructor(number, line, reply, before, after, { focus, written = NOTHING_DONE, moved = NOTHING_DONE, undone, arrays, typed, isBlind = false }) {
    Object.assign(this, { number, line, reply, before, after, focus, written, moved, undone, arrays, typed, isBlind });
  }

  /** The names that the line has. */
  get words() { return this.found ??= new Set(wordsOf(this.line.slice(0, 10_000)).filter(word => this.before.names.has(word) || this.after.names.has(word))); }

  /** The buffers that differ, and those in which names came or went. */
  get touched() {
    const { before, after } = this, found = new Set();
    for (const [one, other] of [[before, after], [after, before]]) for (const [name, bound] of one.names) if (other.names.get(name) !== bound) found.add(bound.buffer);
    for (const [number, buffer] of after.buffers) if (before.buffers.get(number) !== buffer) found.add(number);
    return found;
  }
}

/** A script that is run line by line. `open` makes a bench that keeps so many earlier states; both benches are closed by `close`. */
export class Trace {
  constructor(open, { undo = 16, text = "" } = {}) {
    this.free = freeName(text);
    [this.bench, this.second] = [open(Math.min(undo, MOST_UNDO)), open(64)];
    this.kinds = new Map();
    this.kept = []; // of each change the state before it, the bytes around which it was drawn, and its line
    this.focus = new Map(); // of each buffer the bytes around which it was drawn last
    this.lines = this.made = 0;
    this.isBlind = false; // whether the second bench lost track of the first, for want of memory
    this.state = new State();
  }

  close() {
    this.bench.close();
    this.second.close();
  }

  /** Runs a line, and tells what it did. */
  step(line) {
    this.lines += 1;
    const reply = this.bench.answer(line), text = line.replace(/\r$/, "").replace(ODD, "\ufffd"), before = this.state;
    const verb = /^ok (\w+)/.exec(reply.text)?.[1];
    if (verb === "save") this.share(line);
    const did = !verb || verb === "save" || this.isBlind ? undefined : this.followed(line, reply, verb);
    if (!did) return new Moment(this.lines, text, reply, before, before, { focus: this.focus, arrays: NEEDS_ARRAYS.test(reply.code) ? this.named(line) : undefined, typed: line, isBlind: this.isBlind });
    if (verb !== "undo") this.kept.push([before, did.focus, this.lines]);
    if (this.kept.length > MOST_UNDO) this.kept.shift();
    this.focus = new Map([...this.focus, ...did.focus]);
    return new Moment(this.lines, text, reply, before, this.state, { ...did, focus: this.focus });
  }

  /** The arrays that a line names, each with its items as they are printed, if they are few. */
  named(line) {
    const { names, buffers } = this.state;
    return wordsRead(line.slice(0, 400)).filter(word => names.has(word)).slice(0, MOST_KNOWN).map(word => {
      const bound = names.get(word), { printed } = buffers.get(bound.buffer), isShort = bound.items <= MOST_OWN && bound.items * bound.kind.size <= AT_ONCE;
      if (isShort && !printed.has(bound)) printed.set(bound, this.bench.answer(`print ${word}`).text);
      return { array: bound.array, items: printed.get(bound) };
    });
  }

  /** The second bench gets the file that a line saved. */
  share(line) {
    const [, name] = /"([^"]*)"/.exec(line);
    try { this.second.files.set(name, this.bench.files.get(name)); } catch (fault) { this.goBlind(fault); }
  }

  /** What a line changed; undefined where the second bench has no room to find out. */
  followed(line, reply, verb) {
    try { return verb === "set" || verb === "upd" ? this.write(line, reply) : this.change(line, reply, verb); } catch (fault) { return this.goBlind(fault); }
  }

  /** From here on there are replies, but no pictures. */
  goBlind(fault) {
    if (fault.message !== NO_ROOM_LEFT) throw fault;
    this.isBlind = true;
  }

  /** Sends a line to the second bench too. */
  again(line, reply) {
    const other = this.second.answer(line);
    if (other.code === "E40") throw new Error(NO_ROOM_LEFT);
    if (other.text !== reply.text) throw new Error(`the program answered ${reply.text.slice(0, 200)}, and then ${other.text.slice(0, 200)}`);
  }

  undo(times) { for (let k = 0; k < times; k++) ask(this.second, "undo"); }

  /** What is told of lines that are tried in the second bench and taken back; undefined where one is refused. */
  tried(lines, told) {
    let changes = 0;
    for (const line of lines) {
      if (!this.second.answer(line).accepted) break;
      changes += 1;
    }
    const found = changes === lines.length ? told() : undefined;
    this.undo(changes);
    return found;
  }

  /** A line that binds or unbinds a name, or that goes back. */
  change(line, reply, verb) {
    const { names, buffers } = this.state;
    this.again(line, reply);
    if (verb === "undo") {
      const [state, focus, undone] = this.kept.pop();
      this.state = state;
      return { focus, undone };
    }
    if (verb === "del") this.turn([...names].filter(([name]) => name !== reply.text.split(" ")[2]), buffers);
    else return this.bind(line, reply);
    return { focus: new Map() };
  }

  /** The state after a change, without the buffers that no name sees any more. */
  turn(names, buffers) {
    const kept = names instanceof Map ? names : new Map(names), used = new Set([...kept.values()].map(bound => bound.buffer));
    this.state = new State(kept, new Map([...buffers].filter(([number]) => used.has(number))));
  }

  /** A name was bound: to a view in the buffer of the first name behind it, or to an array in a buffer of its own. */
  bind(line, reply) {
    const [, name, how] = BOUND.exec(reply.text), { names, buffers } = this.state;
    const [, ...behind] = wordsOf(line), array = arrayOf(this.second, name), kind = this.kind(array.type);
    const number = how === "view" ? names.get(behind.find(word => names.has(word))).buffer : ++this.made;
    const bound = new Bound(array, number, kind), focus = this.places(bound, bound.count);
    this.turn([...names, [name, bound]], [...buffers, [number, buffers.get(number) ?? new Memory(kind, product(array.shape))]]);
    this.look(number, focus);
    return { focus: new Map([[number, focus]]) };
  }

  kind(type) {
    if (!this.kinds.has(type)) this.kinds.set(type, kindOf(type));
    return this.kinds.get(type);
  }

  /** The places of the first and the last of so many items. */
  places(items, count) { return around(count, 2 * ENDS).map(k => items.place(k)); }

  /** Items were written, in the buffer of one of the names that the line has. */
  write(line, reply) {
    const { names, buffers } = this.state, target = this.reached(WRITES.exec(line)[1]), named = wordsOf(line).find((word, k) => k && names.has(word));
    const number = names.get(named).buffer, old = buffers.get(number), focus = target ? this.places(target, target.count) : [];
    const moved = target ? this.moves(line, number, target) : new Map();
    this.look(number, focus);
    this.again(line, reply);
    const cells = new Set(old.starts(focus)), fresh = new Memory(old.kind, old.count);
    this.turn(names, [...buffers, [number, fresh]]);
    this.look(number, focus);
    for (const [at, value] of old.values) if (cells.has(at - at % old.kind.size) && !fresh.values.has(at)) fresh.values.set(at, value); // what no name sees has stayed
    const isSame = cells.size === old.count && [...fresh.values].every(([at, value]) => old.values.get(at) === value), written = target ? this.values(target) : [];
    if (isSame) this.turn(names, buffers);
    return { focus: new Map([[number, focus]]), written: new Map([[number, new Set(written.map(({ byte }) => byte))]]), moved: isSame ? new Map() : moved };
  }

  /** The items that an operand, `X` or `X[ix]`, names: their shape, how many they are, and where each is, in C order. Where arrays are in
   *  the index, the numbers of the items are taken in the place of the items, the first ones alone. Undefined where that cannot be tried. */
  reached(operand) {
    const [, name, index] = /^(\w+)(.*)$/.exec(operand.trim()), bound = this.state.names.get(name), { free } = this, { shape } = bound.array;
    const found = view => ({ kind: view.kind, shape: view.array.shape, count: view.items, buffer: bound.buffer, place: k => view.place(k) });
    if (!index) return found(bound);
    const view = this.tried([`${free} = ${name}${index}`], () => arrayOf(this.second, free));
    if (!view) return undefined;
    if (!wordsOf(index).some(word => word !== "None")) return found(new Bound(view, bound.buffer, bound.kind));
    const lines = [`${free} = arange <i8 0 ${bound.items} 1`, `${free} = reshape ${free} (${shape})`, `${free} = ${free}${index}`, `${free} = reshape ${free} (-1)`, `${free} = ${free}[:${MOST_PLACES}]`];
    const numbers = this.tried(product(view.shape) ? lines : [], () => product(view.shape) ? numbersIn(ask(this.second, `print ${free}`)) : []);
    return numbers && { kind: bound.kind, shape: view.shape, count: numbers.length, buffer: bound.buffer, place: k => bound.place(numbers[k]) };
  }

  /** The values of the first items that an operand names, each with the number of its item and its place. */
  values({ kind, count, buffer, place }) {
    return range(0, Math.min(count, Math.ceil(MOST_PLACES / kind.leaves.length))).flatMap(k => kind.leaves.map((leaf, of) => ({ item: k, leaf: of, buffer, byte: place(k) + leaf.at })));
  }

  /** Where the values came from that a line put somewhere: of each the place, by its byte in the buffer that is written. Where an item is
   *  written twice, the last one stands. */
  moves(line, number, target) {
    const moved = new Map(), operand = SOURCE.exec(line)?.[1], source = operand && this.state.names.has(wordsOf(operand)[0]) ? this.reached(operand) : undefined;
    if (!source) return moved;
    const lengths = [...target.shape.map(() => 1), ...source.shape].slice(-target.shape.length || Infinity);
    for (const { item, leaf, byte } of this.values(target)) {
      let rest = item, from = 0, weight = 1;
      for (let axis = target.shape.length - 1; axis >= 0; axis--) {
        from += rest % target.shape[axis] % lengths[axis] * weight;
        weight *= lengths[axis];
        rest = Math.floor(rest / target.shape[axis]);
      }
      if (from >= source.count) continue;
      const origin = source.place(from) + source.kind.leaves[source.kind.leaves.length > 1 ? leaf : 0].at;
      if (origin === byte && source.buffer === number) moved.delete(byte);
      else moved.set(byte, { buffer: source.buffer, byte: origin });
    }
    return moved;
  }

  /** Reads the values of a buffer that are drawn and not known, through the names that see them, the longest arrays first. */
  look(number, focus) {
    const buffer = this.state.buffers.get(number), { values } = buffer, starts = buffer.starts(focus);
    for (const [name, bound] of this.state.inside(number).sort((left, right) => right[1].count - left[1].count)) {
      if (buffer.count === starts.length && values.size === buffer.count * buffer.kind.leaves.length) break; // all is read
      const wanted = new Set([...bound.numbers(starts, buffer.kind.size).map(([byte]) => byte), ...bound.grids(focus).flatMap(grid => grid.places.flat())]);
      const fresh = [...wanted].filter(at => bound.kind.leaves.some(leaf => !values.has(at + leaf.at)));
      const items = fresh.length ? this.items(name, bound, fresh) : [];
      for (const [k, at] of fresh.entries()) for (const [byte, value] of bound.kind.spread(items[k], at)) values.set(byte, value);
    }
  }

  /** The items of an array that begin at some bytes. Where it is long, no others are printed. */
  items(name, bound, places) {
    const lines = [], numbers = places.map(at => bound.number(at)), isLong = bound.count * bound.kind.size > AT_ONCE, { strides } = bound.array;
    if (!strides.every(Boolean)) lines.push(`${name} = ${name}[${strides.map(stride => stride ? ":" : "0")}]`);
    if (isLong) {
      const spare = [...this.state.names.keys()].find(other => other !== name) ?? this.free;
      lines.push(`${name} = reshape ${name} (-1)`, `${spare} = array <i8 (${numbers.length}) ${numbers.join(" ")}`, `${name} = ${name}[${spare}]`);
    }
    const items = this.tried(lines, () => itemsOf(ask(this.second, `print ${name}`)));
    if (!items) throw new Error(NO_ROOM_LEFT);
    return isLong ? items : numbers.map(number => items[number]);
  }
}
