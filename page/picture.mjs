// What is drawn of a line: for each buffer a table of its cells and of the names that see them, and grids; in words too.
import { literal, product, range } from "./trace.mjs";

const LONGEST = 40; // letters of a value
const SHORT = 160; // letters of a type
const PLAIN = 12, STRIPES = ["", "left", "right", "left right"]; // names of a buffer without stripes in their cells; where the next ones have them
const FEW_NAMES = 6, MOST_NAMES = 64, MOST_GRIDS = 4; // that are drawn of a buffer
const MOST_LEAVES = 16; // values of an item in a grid
const FEW_RECORDS = 4, PAGE_RECORDS = 20; // that are drawn to scale; of more each has a row, so many in a page
const UNIT = 4, WIDEST = 20; // letters of a column of such a table, and its columns; where there would be more, each field has a row
const MOST_BUFFERS = 12; // that a line leaves alone and that are drawn all the same

export const cut = (text, most = LONGEST) => text.length <= most ? text : `${text.slice(0, most >> 1)}…${text.slice(1 - (most >> 1))}`;
const counted = (count, what) => `${count} ${what}${count === 1 ? "" : "s"}`;
const shapeText = shape => `(${shape.join(", ")}${shape.length === 1 ? "," : ""})`;
const listed = names => names.length > 1 ? `${names.slice(0, -1).join(", ")} and ${names.at(-1)}` : names[0];
const few = names => names.length > FEW_NAMES ? `${names.slice(0, FEW_NAMES).join(", ")} and ${names.length - FEW_NAMES} more` : listed(names);

/** An index as it is written behind a name: `:` along an axis of more than one place whose items lie in one. */
function indexText({ shape, strides }, index) {
  return index.length ? `[${index.map((at, axis) => strides[axis] || shape[axis] < 2 ? at : ":")}]` : "";
}

/** A buffer before and after a line, as it is drawn. A box has a text, a place and a width in columns, and a look: `x` where a value
 *  has changed, `w` where it was written and is the same, `pad` for bytes of no field. A row's look says what it is. */
class Drawn {
  constructor(moment, number, hues, allNames) {
    const [old, fresh] = [moment.before.buffers.get(number), moment.after.buffers.get(number)], { kind, count } = fresh ?? old;
    Object.assign(this, { moment, number, hues, kind, count, size: kind.size, values: (fresh ?? old).values, focus: moment.focus.get(number) ?? [] });
    this.starts = (fresh ?? old).starts(this.focus);
    this.isByField = kind.fields.length > 0 && this.starts.length > FEW_RECORDS;
    this.leaves = kind.leaves.slice(0, Math.max(1, Math.floor(1024 / Math.max(1, this.starts.length))));
    this.old = old && fresh && old !== fresh ? old.values : new Map();
    this.changed = new Set([...this.old.keys()].filter(at => this.values.has(at) && this.old.get(at) !== this.values.get(at)));
    this.written = moment.written.get(number) ?? new Set();
    const came = moment.reply.text === "ok undo" ? "comes back" : "appears";
    this.state = !old ? came : !fresh ? "goes" : this.changed.size ? "changes" : "";
    this.columns = new Map();
    this.gaps = [];
    for (const [k, start] of this.starts.entries()) {
      if (k && start !== this.starts[k - 1] + this.size) this.gaps.push(this.columns.size + this.gaps.length);
      this.columns.set(start, k + this.gaps.length);
    }
    this.choose(came, allNames);
  }

  /** The names that are drawn, those of the line first. */
  choose(came, all) {
    const { before, after, words } = this.moment, now = after.inside(this.number);
    const gone = before.inside(this.number).filter(([name, bound]) => after.names.get(name) !== bound).map(([name, bound]) => ({ name, bound, state: "goes" }));
    const names = [...gone, ...now.map(([name, bound]) => ({ name, bound, state: before.names.get(name) === bound ? "" : came }))];
    const isOwn = ({ name, state }) => Boolean(state) || words.has(name), sorted = [...names.filter(isOwn), ...names.filter(each => !isOwn(each))];
    const most = all ? MOST_NAMES : FEW_NAMES;
    [this.names, this.folded] = [sorted.slice(0, most), sorted.slice(most).map(({ name }) => name)];
  }

  lookOf(bound, at) {
    const any = of => bound.kind.leaves.some(leaf => of.has(at + leaf.at));
    return any(this.changed) ? "x" : any(this.written) ? "w" : "";
  }

  /** Where a byte is, in columns; undefined where it is not drawn. */
  column(byte) {
    const inside = byte % this.size, column = this.columns.get(Math.floor(byte - inside));
    return column === undefined ? undefined : column + (this.isByField ? 0 : inside / this.size);
  }

  /** A box for some bytes, to scale; as wide as a column where each field has a row. */
  box(text, byte, size, look = "") { return { text, look, byte, size, at: this.column(byte), width: this.isByField ? 1 : size / this.size }; }

  gapped(row) { return { ...row, boxes: [...this.gaps.map(at => ({ text: "…", look: "gap", at, width: 1 })), ...row.boxes].sort((left, right) => left.at - right.at) }; }

  /** The values of the cells, and the bytes between them; of each the text for its byte and field. */
  row(label, look, text) {
    const boxes = [], { leaves } = this, ends = [0, ...leaves.map(leaf => leaf.at + leaf.size)], begins = [...leaves.map(leaf => leaf.at), this.size];
    const pads = ends.map((end, k) => ({ at: end, size: begins[k] - end })).filter(pad => pad.size > 0), rest = leaves.length < this.kind.leaves.length ? "…" : "";
    for (const start of this.starts) {
      boxes.push(...pads.map(({ at, size }) => this.box(at + size === this.size ? rest : "", start + at, size, "pad")));
      for (const { at, size, field } of leaves) {
        const lit = look === "field" ? "" : this.changed.has(start + at) ? "x" : look === "now" && this.written.has(start + at) ? "w" : "";
        boxes.push(this.box(text(start + at, field), start + at, size, lit));
      }
    }
    return this.gapped({ label, look, boxes });
  }

  /** The box of a value of a record, with its value before where that has changed. */
  value(start, { at, size }) {
    const text = cut(literal(this.values.get(start + at))), isChanged = this.changed.has(start + at), was = isChanged ? cut(literal(this.old.get(start + at))) : undefined;
    return { ...this.box(isChanged ? `${was}→${text}` : text, start + at, size, isChanged ? "x" : this.written.has(start + at) ? "w" : ""), was };
  }

  /** A row for each field of the records, with the names that see it alone; and the other names. */
  fieldRows() {
    const alone = new Map(this.leaves.map(leaf => [leaf.at, []])), others = [];
    for (const each of this.names) (each.bound.kind.leaves.length === 1 && alone.get(each.bound.array.at % this.size) || others).push(this.nameRow(each));
    const rows = this.leaves.flatMap(leaf => [this.gapped({ label: `.${cut(leaf.field, 20)}`, look: "now", boxes: this.starts.map(start => this.value(start, leaf)) }), ...alone.get(leaf.at)]);
    return [...rows, ...others];
  }

  /** A table, in pages, in which each record has a row, and each field and each name a column; none if it would be too wide. */
  records() {
    const names = this.names.map(each => this.nameRow(each)), cells = this.leaves.map(leaf => this.starts.map(start => this.value(start, leaf)));
    const heads = [...this.leaves.map(({ field }) => `.${cut(field, 20)}`), ...names.map(({ label }) => label)], columns = [...cells, ...names.map(({ boxes }) => boxes)];
    const widths = columns.map((boxes, k) => Math.ceil(Math.max(2.5, heads[k].length, ...boxes.map(({ text }) => text.length)) + 0.5) / UNIT), begins = widths.map((_, k) => widths.slice(0, k).reduce((left, right) => left + right, 0));
    const whole = Math.ceil(widths.reduce((left, right) => left + right, 0)), fields = this.leaves.length;
    if (whole > WIDEST) return null;
    const placed = (box, k) => ({ ...box, at: begins[k], width: widths[k] }), head = k => placed({ text: heads[k], look: "" }, k);
    const heading = [{ label: "byte", look: "place", boxes: range(0, fields).map(head) }, ...names.map(({ hue, note }, k) => ({ label: "", look: "column", hue, isOver: true, boxes: [head(fields + k)], note }))];
    const record = (start, k) => [{ label: String(start), look: "now", boxes: cells.map((boxes, of) => placed(boxes[k], of)) }, ...names.map((row, of) => ({ ...row, isOver: true, note: "",
      boxes: row.boxes.filter(({ byte }) => byte - byte % this.size === start).map(box => placed(box, fields + of)) }))];
    const rows = this.starts.map((start, k) => [...k && start !== this.starts[k - 1] + this.size ? [{ label: "…", look: "place", boxes: [] }] : [], ...record(start, k)]);
    const pages = range(0, Math.ceil(rows.length / PAGE_RECORDS)).map(k => [...heading, ...rows.slice(k * PAGE_RECORDS, (k + 1) * PAGE_RECORDS).flat()]);
    return { caption: this.caption, columns: whole, rows: [...heading, ...rows.flat()], pages, moves: [], buffer: this.number };
  }

  /** The cells that a name sees, each with the index by which the name reaches it. */
  nameRow({ name, bound, state }) {
    const { array, kind } = bound, times = product(array.shape) / Math.max(1, bound.count);
    const boxes = bound.numbers(this.starts, this.size).map(([byte, number]) => ({ ...this.box(indexText(array, bound.index(byte)) || "[...]", byte, kind.size, state ? "" : this.lookOf(bound, byte)), number, times }));
    const asked = !state && this.moment.words.has(name) ? "asked" : state.split(" ")[0];
    const note = `${name}${state && ` ${state}`}: ${cut(array.type, SHORT)} ${shapeText(array.shape)}, strides ${shapeText(array.strides)}, at ${array.at}`
      + (array.writable ? "" : ", read-only") + (times > 1 ? `, ${times} indexes to each item` : "");
    const hue = this.hue(name), stripes = state === "goes" ? "" : STRIPES[Math.floor(hue / PLAIN) % STRIPES.length];
    return { label: name, look: `name ${asked}`.trim(), hue, stripes, boxes: boxes.sort((left, right) => left.at - right.at), note };
  }

  hue(name) { return this.hues.get(`${name} ${this.number}`); }

  /** What the buffer is, and what of it is not drawn. */
  get caption() {
    const hidden = this.count - this.starts.length, values = this.kind.leaves.length - this.leaves.length;
    const caption = [`Buffer ${this.number}${this.state && ` ${this.state}`}: ${counted(this.count, "item")} of ${cut(this.kind.text, SHORT)}, ${counted(this.count * this.size, "byte")}`,
      hidden && `${hidden} items in between are not drawn`, values && `the last ${values} values of each item are not drawn`,
      this.folded.length && `${this.folded.length} more names see it: ${this.folded.slice(0, 20).join(" ")}${this.folded.length > 20 ? " .." : ""}`];
    return caption.filter(Boolean).join("; ");
  }

  /** The cells of the buffer, and under them those of each name. */
  strip() {
    const rows = [this.gapped({ label: "byte", look: "place", boxes: this.starts.map(start => this.box(String(start), start, this.size)) })];
    if (this.isByField) rows.push(...this.fieldRows());
    else {
      if (this.kind.fields.length) rows.push(this.row("field", "field", (_, field) => field));
      if (this.changed.size) rows.push(this.row("before", "old", at => cut(literal(this.old.get(at)))));
      rows.push(this.row("value", "now", at => cut(literal(this.values.get(at)))), ...this.names.map(each => this.nameRow(each)));
    }
    const half = new Map(this.leaves.map(leaf => [leaf.at, leaf.size / 2])), middle = byte => this.column(byte + (half.get(byte % this.size) ?? 0));
    const pairs = this.state === "changes" && !this.isByField ? [...this.moment.moved].filter(([, { buffer }]) => buffer === this.number && this.written.size) : [];
    const moves = pairs.map(([at, { byte }]) => [middle(byte), middle(at)]).filter(pair => pair.every(place => place !== undefined));
    return { caption: this.caption, columns: this.columns.size + this.gaps.length, rows, moves, buffer: this.number };
  }

  /** Items in rows and columns, one that has changed as `1→2`. */
  grid(name, bound, { part, rows, columns, places }) {
    const was = new Map([...this.values, ...this.old]), { kind } = bound;
    const made = [{ label: "", look: "place", boxes: columns.map((column, k) => ({ text: String(column), look: "", at: k, width: 1 })) }];
    for (const [k, line] of places.entries()) {
      const boxes = line.map((byte, at) => {
        const look = this.lookOf(bound, byte), text = cut(literal(kind.item(this.values, byte)));
        return { text: look === "x" ? `${cut(literal(kind.item(was, byte)))}→${text}` : text, look, at, width: 1, byte, size: kind.size };
      });
      made.push({ label: String(rows[k]), look: "grid", hue: this.hue(name), boxes });
    }
    const hidden = product(bound.array.shape.slice(-2)) - rows.length * columns.length;
    return { caption: `${name}${part} in rows and columns${hidden ? `; ${hidden} items are not drawn` : ""}`, columns: columns.length, rows: made, moves: [], buffer: this.number };
  }

  tables() {
    const shown = this.names.filter(({ bound, state }) => state !== "goes" && bound.kind.leaves.length <= MOST_LEAVES).map(each => ({ ...each, grids: each.bound.grids(this.focus) }));
    return [this.isByField && this.records() || this.strip(), ...shown.filter(({ grids }) => grids.length).slice(0, MOST_GRIDS).flatMap(({ name, bound, grids }) => grids.map(grid => this.grid(name, bound, grid)))];
  }
}

/** The number of a colour for each name in a buffer, by both: one that no other name has at that time. */
export function huesOf(moments, hues = new Map()) {
  for (const { before, after } of moments) {
    for (const { names } of before === after ? [] : [before, after]) {
      for (const [name, { buffer }] of names) {
        if (hues.has(`${name} ${buffer}`)) continue;
        const taken = new Set([...names].map(([other, bound]) => hues.get(`${other} ${bound.buffer}`)));
        hues.set(`${name} ${buffer}`, range(0, taken.size + 1).find(hue => !taken.has(hue)));
      }
    }
  }
  return hues;
}

/** The tables of a line: of the buffers that it concerns, and then of the others, the last ones; and how many are not drawn. */
export function tablesOf(moment, hues, allNames = false) {
  const { before, after, touched, words } = moment, own = new Set(touched);
  for (const word of words) if (after.names.has(word)) own.add(after.names.get(word).buffer);
  const rest = [...new Set([...before.buffers.keys(), ...after.buffers.keys()])].filter(number => !own.has(number));
  const shown = [...[...own].sort((left, right) => left - right), ...rest.slice(-MOST_BUFFERS)];
  return { tables: shown.flatMap(number => new Drawn(moment, number, hues, allNames).tables()), hidden: Math.max(0, rest.length - MOST_BUFFERS) };
}

/** What a byte of a buffer is for each name that sees it after a line. */
export function seenAt(moment, number, byte) {
  const state = moment.after.buffers.has(number) ? moment.after : moment.before, buffer = state.buffers.get(number);
  return state.inside(number).flatMap(([name, bound]) => {
    const places = new Set(bound.kind.leaves.map(leaf => byte - leaf.at)), at = [...places].find(place => bound.index(place) !== null);
    return at === undefined ? [] : [{ name, operand: name + indexText(bound.array, bound.index(at)), value: literal(bound.kind.item(buffer.values, at)) }];
  });
}

/** The bytes of a number as they lie in memory; nothing for a value of another kind. */
export function bytesIn({ type, size }, value) {
  if (!/^-?\d+$/.test(value)) return "";
  const bytes = BigInt.asUintN(8 * size, BigInt(value)).toString(16).padStart(2 * size, "0").match(/../g);
  return (type[0] === ">" ? bytes : bytes.reverse()).join(" ");
}

/** What a line did, in words. */
export function said(moment) {
  if (moment.isBlind) return "There is no room left to draw the memory of this line.";
  const { before, after, moved, written, undone, line, reply } = moment, told = undone ? [`Line ${undone} is taken back.`] : [], [, saved] = /^ok save (\d+)$/.exec(reply.text) ?? [];
  const fresh = reply.text.endsWith(" copy") ? "a copy" : "a new array", why = fresh === "a copy" && /=\s*reshape\b/.test(line) ? ": no strides lead to the items in this shape" : "";
  for (const [name, bound] of after.names) {
    const old = before.names.get(name), { buffer } = bound, others = after.inside(buffer).map(([other]) => other).filter(other => other !== name);
    if (old === bound) continue;
    if (undone) told.push(`${name} is back, in buffer ${buffer}.`);
    else told.push(`${name} is ${old ? "now " : ""}${before.buffers.has(buffer) ? `a view of buffer ${buffer}${others.length ? `, like ${few(others)}` : ""}` : `${fresh} in buffer ${buffer}${why}`}.`);
  }
  for (const name of before.names.keys()) if (!after.names.has(name)) told.push(`${name} is unbound.`);
  for (const number of before.buffers.keys()) if (!after.buffers.has(number)) told.push(`Buffer ${number} is freed.`);
  for (const [number, buffer] of after.buffers) {
    const old = before.buffers.get(number), changed = old && old !== buffer ? [...buffer.values].filter(([at, value]) => old.values.has(at) && old.values.get(at) !== value) : [];
    if (!changed.length) continue;
    const names = after.inside(number).filter(([, bound]) => changed.some(([at]) => bound.kind.leaves.some(leaf => bound.index(at - leaf.at) !== null))).map(([name]) => name);
    const part = buffer.count > buffer.starts(moment.focus.get(number)).length ? ", of those that are drawn" : "";
    told.push(`${counted(changed.length, "value")} in buffer ${number} change${changed.length === 1 ? "s" : ""}${part}, ${names.length ? `seen by ${few(names)}` : "no name sees it"}.`);
  }
  const [from] = [...moved.values()].map(({ buffer }) => buffer).filter(buffer => !written.has(buffer));
  if (saved) told.push(`The file ${/"(.*)"/.exec(line)[1]} has ${saved} bytes.`);
  if (moved.size) told.push(from ? `${counted(moved.size, "value")} come${moved.size === 1 ? "s" : ""} from buffer ${from}.` : `${counted(moved.size, "value")} moved.`);
  else if (!told.length && [...written.values()].some(bytes => bytes.size)) told.push("The values written are those that were there.");
  return told.slice(0, 12).join(" ") || "Nothing changes.";
}
