// What is said of a refused line: the lines to write instead, or the numbers behind its code, as the companion's hints.py says them. A line
// is tried in a bench of its own, with arrays like those that it names.
import { MOST_OWN, itemsOf, kindOf, literal, product, range, wordsRead } from "./trace.mjs";
import { Trial, shaped } from "./tried.mjs";
import { offerOf } from "./offers.mjs";

const LONGEST_LINE = 400, LONGEST_MADE = 65_536, MOST_TRIED = 1 << 24; // letters of a line of which more is said than its code, and of one that is made; items of a base
const OPERAND_PIECES = ["X[ix]", "Y[ix]", "Y[iy]", "Y[?]", "Y", "Z"];
const tupleOf = shape => `(${shape.join(", ")}${shape.length === 1 ? "," : ""})`;
const itemsText = count => count === 1 ? "1 item" : `${count} items`;
const BOUNDS_OF = (letter, size) => letter === "u" ? [0n, (1n << BigInt(8 * size)) - 1n] : [-(1n << BigInt(8 * size - 1)), (1n << BigInt(8 * size - 1)) - 1n];

/** The shape of an array in C order, an index into it and an order of axes that give a shape with these steps from item to item. */
function strided(shape, steps) {
  const short = range(0, shape.length).filter(axis => shape[axis] < 2), long = range(0, shape.length).filter(axis => shape[axis] > 1).sort((left, right) => Math.abs(steps[right]) - Math.abs(steps[left]));
  const base = short.map(axis => shape[axis]), entries = short.map(() => ":");
  for (const [k, axis] of long.entries()) {
    const length = shape[axis], step = Math.abs(steps[axis]), before = k ? Math.abs(steps[long[k - 1]]) : 0;
    if (!step || k && (before % step || Math.floor(before / step) < length)) return undefined;
    base.push(k ? before / step : length);
    entries.push(steps[axis] > 0 ? `:${length}` : `${length - 1}::-1`);
  }
  const last = long.length ? Math.abs(steps[long.at(-1)]) : 1, order = shape.map((_, axis) => [...short, ...long].indexOf(axis));
  return product(base) * last <= MOST_TRIED && base.length < 64 ? { base: [...base, last], entries: [...entries, "0"], order } : undefined;
}

/** The lines that give a name the strides of an array, and keep its items. Steps that are no whole items become twice as long. */
function laidOut({ name, type, shape, strides }) {
  const { size } = kindOf(type), steps = strides.every(stride => stride % size === 0) ? strides.map(stride => stride / size) : undefined, other = name === "_" ? "__" : "_";
  const { base, entries, order } = steps && strided(shape, steps)
    || { base: [...shape.slice(0, -1), 2 * Math.max(1, shape.at(-1))], entries: [...shape.slice(1).map(() => ":"), `:${2 * shape.at(-1)}:2`], order: [] };
  const turn = order.some((axis, k) => axis !== k) ? [`${name} = transpose ${name} ${shaped(order)}`] : [];
  return [`${other} = ${name}`, `${name} = zeros ${type} ${shaped(base)}`, `${name} = ${name}[${entries.join(",")}]`, ...turn, `set ${name}[...] = ${other}`, `del ${other}`];
}

/** The lines that bind the name of an array to one like it, with its type, its shape and its strides. With items they are those. */
export function like(array, values) {
  const { name, type, shape, strides, order } = array, isOnce = shape.map((length, axis) => strides[axis] === 0 && length > 1), spread = `${name} = broadcast ${name} ${shaped(shape)}`;
  if (isOnce.includes(true)) { // it repeats its items
    const isFirst = k => { let rest = k; return shape.every((_, of) => { const axis = shape.length - 1 - of, at = rest % shape[axis]; rest = Math.floor(rest / shape[axis]); return !isOnce[axis] || !at; }); };
    const inner = { ...array, shape: shape.map((length, axis) => isOnce[axis] ? 1 : length), order: order.includes("C") ? "C" : "-", writable: true };
    return [...like(inner, values?.filter((_, k) => isFirst(k))), spread];
  }
  const made = values ? [`${name} = array ${type} ${shaped(shape)}`, ...values.map(literal)].join(" ") : "";
  const layout = order.includes("C") ? [] : order.includes("F") ? [`${name} = copy ${name} F`] : laidOut(array);
  return [made && made.length <= LONGEST_MADE ? made : `${name} = zeros ${type} ${shaped(shape)}`, ...layout, ...array.writable ? [] : [spread]];
}

/** The types, shapes and numbers behind the refusal of a line that is a command, whose parts are given. */
class Numbers {
  constructor(trial, parts, rules) {
    const bound = trial.names(), read = parts.filter(({ piece }, k) => !["X", "D"].includes(piece) || parts[k + 1] && parts[k + 1].piece !== "=");
    Object.assign(this, { trial, rules, text: Object.fromEntries(parts.map(({ piece, text }) => [piece, text])) });
    this.known = new Map([...new Set(read.flatMap(({ text }) => wordsRead(text)))].filter(word => bound.includes(word)).map(word => [word, trial.array(word)]));
    this.operands = parts.filter(({ piece, text }) => OPERAND_PIECES.includes(piece) && this.known.has(text.split("[")[0].trim())).map(({ text }) => text);
  }

  /** The numbers behind a code; or when it occurs, if that is short, and the arrays of the line. */
  said(code) {
    let told = "";
    try { told = this[code.toLowerCase()]?.() ?? ""; } catch { /* there are none */ }
    if (told) return told;
    const [, when] = this.rules.codes[code], facts = code >= "E10" && code <= "E25" ? this.facts().join(", ") : "";
    return facts && when.length > 80 ? facts : facts ? `${when}: ${facts}` : when;
  }

  /** The operands and the index arrays, each with its type and shape. */
  facts() {
    const found = new Map(this.known);
    for (const operand of this.operands) { try { found.set(operand, this.array(operand)); } catch { /* it is refused */ } }
    return [...found].map(([name, { type, shape }]) => `${name} is ${type} ${tupleOf(shape)}`);
  }

  /** An operand with its index as an array. */
  array(operand) {
    if (this.known.has(operand)) return this.known.get(operand);
    const free = ["_", "__", "___"].find(name => !this.known.has(name));
    this.trial.ask(`${free} = ${operand}`);
    const found = this.trial.array(free);
    this.trial.ask(`del ${free}`);
    return found;
  }

  axes(name) { const count = this.known.get(name).shape.length; return `${name} has ${count || "no"} ax${count === 1 ? "i" : "e"}s`; }

  /** The axes that an entry of an index takes. */
  takes(entry) {
    const array = this.known.get(entry);
    return array?.type === "|b1" ? array.shape.length : Number(!["None", "..."].includes(entry));
  }

  lengths(text) { return text.match(/[+-]?\d+/g)?.map(Number) ?? []; }
  indexOf(operand) { const [name, ...rest] = operand.replace(/[\] \t]+$/, "").split("["), index = rest.join("["); return { name: name.trim(), index, entries: index.split(",").map(each => each.trim()) }; }

  e04() { const { D } = this.text, type = this.rules.type(D); return type ? `write ${type} instead of ${D}` : `${D.slice(0, 60)} is not a type such as <i4, |u1, |b1, |S5 or T{<i:x:<h:y:}`; }

  e05() {
    const { D } = this.text, type = this.rules.type(D), what = this.rules.NO_KIND[D.replace(/^[<>|=]+/, "")[0]];
    return type ? `write ${type} instead of ${D}` : what ? `the type is not supported: there are no ${what}` : "";
  }

  e09() {
    const lengths = this.lengths(this.text.S || this.text["S-"]), most = Math.max(...lengths), count = product(lengths);
    if (most > 1 << 24) return `${most} is above 16777216, the greatest length of an axis`;
    return count > 1 << 24 ? `${itemsText(count)} are more than 16777216` : `${itemsText(count)} of that type are more than 268435456 bytes`;
  }

  /** How many axes an index takes, and how many there are. */
  e10() {
    for (const { name, index, entries } of this.operands.map(operand => this.indexOf(operand))) {
      const taken = entries.reduce((sum, entry) => sum + this.takes(entry), 0);
      if (index && taken > this.known.get(name).shape.length) return `${this.axes(name)}, and [${index}] takes ${taken}`;
    }
    return "";
  }

  /** The first number that is out of range for its axis. */
  e11() { return this.operands.filter(operand => operand.includes("[")).map(operand => this.outside(operand)).find(Boolean) ?? ""; }

  outside(operand) {
    const { name, entries } = this.indexOf(operand), { shape } = this.known.get(name), takes = entries.map(entry => this.takes(entry)), large = [];
    let axis = 0;
    for (const [k, entry] of entries.entries()) {
      if (entries[k - 1] === "...") axis = shape.length - takes.slice(k).reduce((left, right) => left + right, 0);
      if (takes[k] && !(axis < shape.length)) throw new RangeError();
      const length = takes[k] ? shape[axis] : 0, within = length ? `${-length} to ${length - 1} are within` : "it has no item", array = this.known.get(entry), isArray = Boolean(array) && array.type !== "|b1";
      if (isArray && product(array.shape) > MOST_OWN) large.push(`axis ${axis} of ${name} has length ${length}: a number in ${entry} is outside, ${within}`);
      const wrong = this.numbers(entry, isArray).find(value => value < BigInt(-length) || value >= BigInt(length));
      if (wrong !== undefined) return `axis ${axis} of ${name} has length ${length}: ${wrong}${isArray ? ` in ${entry}` : ""} is outside, ${within}`;
      axis += takes[k];
    }
    return large.length === 1 ? large[0] : "";
  }

  /** The number of an entry, or those of an index array, unless there are many. */
  numbers(entry, isArray) {
    if (!isArray) return /^[+-]?\d+$/.test(entry) ? [BigInt(entry.replace("+", ""))] : [];
    return product(this.known.get(entry).shape) <= MOST_OWN ? itemsOf(this.trial.ask(`print ${entry}`)).map(BigInt) : [];
  }

  e12() { return this.text.s === undefined ? "the step of a slice is 0" : "the step of arange is 0"; }

  e16() {
    const shapes = new Map(this.operands.map(operand => [operand, this.array(operand).shape])), isBetween = this.text.OP !== undefined && this.text["X[ix]"] === undefined;
    const told = [...shapes].map(([operand, shape]) => `${operand} has shape ${tupleOf(shape)}`).join(", ");
    return `${told}: aligned at the last axis, lengths must be equal, or 1${isBetween ? "" : ` in ${this.operands.at(-1)}`}`;
  }

  e17() {
    const { Y: name, "(axes)": axes } = this.text, count = this.known.get(name).shape.length;
    if (axes) return `${this.axes(name)}: ${axes} must have each of them once`;
    return `${this.axes(name)}: ${count ? `an axis is ${-count} to ${count - 1}` : "leave the axis out"}, not ${this.text["[axis]"]}`;
  }

  e18() {
    const { Y: name, "S-": given } = this.text, lengths = this.lengths(given), known = product(lengths.filter(length => length !== -1)), { type, shape } = this.known.get(name);
    if (lengths.some(length => length < -1) || lengths.filter(length => length === -1).length > 1) return "a length is 0 or more; one may be -1, for what is left";
    const begin = `${name} is ${type} ${tupleOf(shape)}: ${itemsText(product(shape))}, and `;
    if (!lengths.includes(-1)) return `${begin}${given} has ${known}`;
    return begin + (known ? `${known} does not divide that` : "beside a length of 0 there is no -1");
  }

  e19() {
    const name = this.text.Y, fields = this.trial.fields(name);
    return fields.length ? `${name} has the field${fields.length > 1 ? "s" : ""} ${fields.join(" ")}` : `${this.facts()[0]}, which has no fields`;
  }

  e21() { return this.text.OP === "div" ? "`fdiv` divides and rounds down" : ""; }

  e23() {
    const [first] = this.operands, kind = this.text.D || this.array(first).type, [, letter, size] = /^[<>|]?([iu])([1248])$/.exec(kind), [low, high] = BOUNDS_OF(letter, Number(size));
    return `${first ? `${first.split("[")[0]} is ${kind}, which` : kind} holds ${low} to ${high}`;
  }

  e32() {
    const count = product(this.lengths(this.text.S)), values = (this.text["L.."].match(/b'[^']*'|\((?:[^()]|\([^()]*\))*\)|[^\s()]+/g) ?? []).length;
    return `the shape ${this.text.S} has ${itemsText(count)}, and there ${values === 1 ? "is 1 literal" : `are ${values} literals`}`;
  }

  e33() {
    if (this.text["L.."] !== undefined) return "";
    return `${this.text.L || this.text.Z || this.operands.at(-1)} cannot be converted to ${this.text.D || this.array(this.operands[0]).type}`;
  }
}

/** What is said of refused lines. `open` makes a bench in which a line is tried, of another program where the last one broke. */
export class Hints {
  constructor(language, open) { Object.assign(this, { language, open, isBroken: false }); }

  /** What is said of a line beside its reply: the lines that are offered, and texts. `names` are all that are bound, `arrays` those that the
   *  line names, each with its printed items if there are few, and `files` are those that a line can load. */
  said(line, code, { names, arrays, files }) {
    if (line.length > LONGEST_LINE) return { offered: [], told: [] };
    let bench;
    try {
      bench = this.open(this.isBroken);
      this.isBroken = false;
      const trial = new Trial(bench, files);
      for (const { array, items } of arrays) for (const text of like(array, items === undefined ? undefined : itemsOf(items))) trial.send(text);
      return code === "E03" ? this.offered(line, trial, names) : { offered: [], told: [this.numbers(line, trial, code)] };
    } catch {
      this.isBroken = true;
      return { offered: [], told: [] };
    } finally { if (!this.isBroken) bench?.close(); }
  }

  numbers(line, trial, code) { return new Numbers(trial, this.language.partsOf(line), this.language.rulesOfNumPy).said(code); }

  /** What to write instead of a line that is not a command. */
  offered(line, trial, names) {
    const rules = this.language.rulesOfNumPy, [, bare] = /^([^#'"]*[^#\s'"])\s*#.*$/.exec(line) ?? [], { lines, reasons, refusal } = offerOf(bare ?? line, trial, names, rules);
    const told = [...bare === undefined ? [] : [this.language.phrase("comment")], ...reasons];
    if (refusal) return { offered: [], told: [...told, ...this.why(lines.at(-1), trial, names, refusal)], isRefused: true };
    if (bare !== undefined && !lines.length && !reasons.length) return { offered: trial.send(bare).accepted ? [bare] : [], told };
    return { offered: lines, told };
  }

  /** Why an offered line is refused. */
  why(line, trial, names, { code }) {
    if (code === "E06") return this.language.ofName(line, [...new Set([...names, ...trial.names()])]);
    return [this.language.phrase("then", line, code, code === "E34" ? this.language.ofFile(line, trial.files) : this.numbers(line, trial, code))];
  }
}
