// Lines that are tried as they are written, and what the types and shapes of literals and arrays are together, as NumPy has it. The rules
// are those of the companion's numpy_rules.py, which the page has in its tables; these modules read them as its translate.py does.
import { Bytes, ELLIPSIS, Float, Tuple, constantOf, isKind, node, transformed, valueOf } from "./python.mjs";
import { arrayOf, kindOf, product, range } from "./trace.mjs";

export const PLAIN_NAME = /^[A-Za-z_]\w*$/;
export const TYPE_WORD = /^(?:([<>|=]?)([biu])([1248])$|[|<>=]?S(\d+)$|\?$)/;
export const FLOAT_WORD = /^(?:(np\.)?(float|complex|double|single|half)\d*$|[<>|=]?[fc](2|4|8|16)$|-?\d*\.\d+$|\d+\.$|\d+e-?\d+$)/;
export const QUESTIONS = ["shape", "dtype", "strides", "ndim", "size", "flags", "nbytes", "itemsize", "base"];
const MOST_WRITTEN = 40;

/** There is no translation; the reason, if it is known. */
export class Unknown extends Error {}
/** The arguments are too few, or others than a rule can read. */
export class Misfit extends Error {}
/** A line of the translation is refused. */
export class Stopped extends Error { constructor(reply) { super(); this.reply = reply; } }

export const refuse = (why = "") => { throw new Unknown(why); };
/** The item at a place of a list, from its end where the place is negative. */
export const itemAt = (list, place) => { const found = list.at(place); if (found === undefined) throw new Misfit(); return found; };
export const letterOf = type => type.startsWith("T") ? "V" : type[1];
export const shaped = shape => `(${shape.join(",")})`;
export const along = (axis, entry) => `[${":,".repeat(axis)}${entry}]`;
export const isList = value => Array.isArray(value) && !(value instanceof Tuple);

/** The items of nested lists. */
export function flat(held) {
  const inner = isKind(held, "List") ? held.elts : held;
  return isList(inner) ? inner.flatMap(flat) : [held];
}

/** A value of Python as a literal. */
export function literalOf(value) {
  if (value instanceof Tuple) return `(${[...value].map(literalOf).join(", ")}${value.length === 1 ? "," : ""})`;
  if (value instanceof Bytes) return `b'${value.text.replace(/[^ -~]|['\\]/g, letter => `\\x${letter.charCodeAt(0).toString(16).padStart(2, "0")}`)}'`;
  if (isList(value)) return `[${value.map(literalOf).join(", ")}]`;
  return value === null ? "?" : value === true ? "True" : value === false ? "False" : value === ELLIPSIS ? "Ellipsis" : String(value);
}

/** A type string as it is written in a record. */
export function memberOf(kind) {
  if ("bS".includes(kind[1])) return kind[1] === "b" ? "?" : `${kind.slice(2)}s`;
  const letter = { 1: "b", 2: "h", 4: "i", 8: "q" }[kind[2]];
  return kind[0].replace("|", "") + (kind[1] === "u" ? letter.toUpperCase() : letter);
}

/** The shape of nested lists. */
export function shapeOf(lists) {
  if (!isList(lists)) return [];
  const shapes = lists.map(shapeOf), [first = []] = shapes;
  if (shapes.some(shape => shape.join() !== first.join())) refuse("the lists have different lengths");
  return [lists.length, ...first];
}

/** The lengths of a shape that arrays of these shapes are broadcast to. */
export function stretched(shapes) {
  const count = Math.max(0, ...shapes.map(shape => shape.length));
  return range(0, count).map(k => {
    const lengths = new Set(shapes.map(shape => shape.at(k - count)).filter((length, of) => shapes[of].length >= count - k && length !== 1));
    if (lengths.size > 1) refuse();
    return [...lengths][0] ?? 1;
  });
}

/** The rules, and what the language says of its words. */
export class Rules {
  constructor(numpy, { forms, operations, words, codes, comparisons }) {
    Object.assign(this, { ...numpy, operations, codes, comparisons, reserved: new Set(words), calls: new Map() });
    this.why = Object.fromEntries(Object.entries(numpy.REASONS).flatMap(([why, listed]) => listed.split(" ").map(word => [word, why])));
    for (const [call, condition, made] of numpy.CALLS) {
      const [, word, parameters] = /^(\w+)\((.*)\)$/.exec(call);
      this.calls.set(word, [...(this.calls.get(word) ?? []), { parameters: parameters.split(",").map(each => each.trim()), condition, made }]);
    }
    this.pieces = new Map();
    for (const pieces of forms.map(form => form.map(([piece]) => piece))) {
      const begin = pieces[1] === "=" ? 2 : 0, behind = pieces.slice(begin + 1);
      for (const word of operations[pieces[begin]] ?? pieces.slice(begin, begin + 1)) if (behind.length > (this.pieces.get(word)?.length ?? -1)) this.pieces.set(word, behind);
    }
    const firsts = forms.filter(form => form[1]?.[0] === "=").flatMap(form => operations[form[2][0]] ?? [form[2][0]]);
    this.verbs = new Set(firsts.filter(word => /^[a-z]/.test(word)));
  }

  word(raw) { return Object.hasOwn(this.WORDS, raw) ? this.WORDS[raw] : raw; }
  type(word) { return Object.hasOwn(this.TYPES, word) ? this.TYPES[word] : undefined; }
  reason(word) { return Object.hasOwn(this.why, word) ? this.why[word] : undefined; }

  /** The type that NumPy gives literals. */
  kindOfItems(items) {
    if (items.length && items.every(item => item instanceof Bytes)) return `|S${Math.max(1, ...items.map(({ text }) => text.length))}`;
    if (items.some(item => typeof item === "string")) refuse(this.NO_TEXT);
    if (items.length && items.every(item => typeof item === "boolean")) return "|b1";
    return items.some(item => typeof item === "bigint" && item >= 1n << 63n) ? "<u8" : "<i8";
  }

  /** Whether a node is a dtype: a string, a name such as np.int16, the dtype of an array, or a list of fields. */
  isType(each) {
    if (isKind(each, "List")) return each.elts.length > 0 && each.elts.every(field => isKind(field, "Tuple") && isKind(field.elts[0], "Constant") && typeof field.elts[0].value === "string");
    if (isKind(each, "Attribute") && each.attr === "dtype") return true;
    const word = isKind(each, "Attribute") ? each.attr : isKind(each, "Name") ? each.id : each?.value;
    return typeof word === "string" && (this.type(word) !== undefined || TYPE_WORD.test(word) || FLOAT_WORD.test(word) || word.startsWith("T{"));
  }

  /** The type that NumPy gives to items of these types together. */
  promoted(types) {
    const letters = new Set(types.map(letterOf)), isBig = types.some(type => type[0] === ">"), sizes = letter => Math.max(0, ...types.filter(type => letterOf(type) === letter).map(type => kindOf(type).size));
    if (new Set(types).size === 1 && !isBig) return types[0];
    if ([...letters].join() === "S") return `|S${sizes("S")}`;
    if (isBig || [...letters].some(letter => !"biu".includes(letter))) refuse();
    const [signed, unsigned] = [sizes("i"), sizes("u")], wide = signed && unsigned >= signed ? 2 * unsigned : signed;
    if (wide > 8) refuse("<i8 and <u8 together are floats in NumPy, and there are no floats");
    const size = wide || unsigned;
    return `${size === 1 ? "|" : "<"}${wide ? "i" : "u"}${size}`;
  }
}

/** Lines that are tried in a bench as they are written. `names` are all those that are taken. */
export class Lines {
  constructor(trial, names, rules) {
    Object.assign(this, { trial, rules, lines: [], reasons: [], reply: { accepted: true, code: "", text: "" }, goal: "", taken: new Set(names) });
  }

  /** Adds a line, and tries it. */
  write(line) {
    if (this.lines.length >= MOST_WRITTEN) refuse();
    this.lines.push(line);
    this.reply = this.trial.send(line);
    if (!this.reply.accepted) throw new Stopped(this.reply);
  }

  free() {
    const name = ["t", "u", "v", "w", ...range(0, 99).map(k => `t${k}`)].find(each => !this.taken.has(each)) ?? refuse();
    this.taken.add(name);
    return name;
  }

  /** A text as a name: the text itself if it is a name, otherwise a free name that is bound to it. */
  bound(text) {
    if (PLAIN_NAME.test(text) && !["True", "False", "None"].includes(text)) return text;
    const name = this.free();
    this.write(`${name} = ${text}`);
    return name;
  }

  /** The array of an operand, without its items. */
  info(text) {
    if (PLAIN_NAME.test(text) && this.trial.names().includes(text)) return this.trial.array(text);
    const name = itemAt(["_", "__", "___"].filter(each => !this.taken.has(each)), 0);
    if (!this.trial.send(`${name} = ${text}`).accepted) this.write(`${this.goal || this.free()} = ${text}`); // which is refused
    const found = this.trial.array(name);
    this.trial.send(`del ${name}`);
    return found;
  }

  // Constants.

  constant(each) {
    const found = valueOf(each);
    if (found === undefined) refuse();
    if (flat(found).some(value => value instanceof Float)) refuse(this.rules.NO_FLOATS);
    return found;
  }

  /** The value of an integer. */
  number(each) {
    const found = each ? this.constant(each) : null;
    return typeof found === "bigint" || typeof found === "boolean" ? found : refuse();
  }

  literal(each) {
    const found = this.constant(each);
    return typeof found === "string" ? refuse(this.rules.NO_TEXT) : literalOf(found);
  }

  isConstant(each) {
    const inner = isKind(each, "UnaryOp") && ["USub", "UAdd"].includes(each.op) ? each.operand : each;
    return isKind(inner, "Constant") && inner.value !== null && inner.value !== ELLIPSIS || isKind(inner, "Tuple") && inner.elts.every(one => this.isConstant(one));
  }

  isNumber(each) { return this.isConstant(each) && !isKind(each, "Tuple"); }

  /** A node with the numbers of arrays in it, such as `len(a)` and `m.shape[1] // 2`, as constants. */
  folded(each) {
    const array = one => isKind(one, "Name") && this.trial.names().includes(one.id) ? this.info(one.id) : null;
    return transformed(each, {
      Attribute: (one, inner) => { inner(one); return (QUESTIONS.includes(one.attr) && this.fact(one, array(one.value))) || one; },
      Subscript: (one, inner) => {
        const isShape = isKind(one.value, "Attribute") && one.value.attr === "shape";
        inner(one);
        return isShape && isKind(one.value, "Tuple") && this.isNumber(one.slice) ? itemAt(one.value.elts, Number(this.number(one.slice))) : one;
      },
      Call: (one, inner) => {
        inner(one);
        const of = isKind(one.func, "Name") && one.func.id === "len" && one.args.length === 1 ? array(one.args[0]) : null;
        return of?.shape.length ? constantOf(BigInt(of.shape[0])) : one;
      },
      BinOp: (one, inner) => { inner(one); return isKind(one.left, "List") ? this.listOf(one) : this.computed(one); },
      UnaryOp: (one, inner) => {
        inner(one);
        const below = one.operand;
        return one.op === "USub" && isKind(below, "UnaryOp") && below.op === "USub" && isKind(below.operand, "Constant") ? below.operand : one;
      },
    });
  }

  /** The fact of an array that an attribute names. */
  fact({ attr }, array) {
    if (!array) return null;
    const { size } = kindOf(array.type), count = product(array.shape);
    if (attr === "shape") return node("Tuple", { elts: array.shape.map(length => constantOf(BigInt(length))) });
    const found = { size: count, ndim: array.shape.length, itemsize: size, nbytes: size * count }[attr];
    return found === undefined ? null : constantOf(BigInt(found));
  }

  /** What is computed of two integers. */
  computed(each) {
    const [left, right] = [each.left, each.right].map(side => isKind(side, "Constant") && typeof side.value === "bigint" ? side.value : undefined), { op } = each;
    if (left === undefined || right === undefined || ["Div", "LShift", "MatMult"].includes(op)) return each;
    if (op === "Pow" && (right < 0n || right > 64n) || !right && ["FloorDiv", "Mod"].includes(op)) return each;
    if (op === "RShift" && right < 0n) throw new Misfit();
    const rest = ["FloorDiv", "Mod"].includes(op) ? ((left % right) + right) % right : 0n;
    const found = { Add: () => left + right, Sub: () => left - right, Mult: () => left * right, FloorDiv: () => (left - rest) / right, Mod: () => rest, Pow: () => left ** right,
      BitAnd: () => left & right, BitOr: () => left | right, BitXor: () => left ^ right, RShift: () => right > 10_000n ? (left < 0n ? -1n : 0n) : left >> right }[op]();
    return found >= 0n ? constantOf(found) : node("UnaryOp", { op: "USub", operand: constantOf(-found) });
  }

  /** A list that is repeated or joined to another, as Python does it. */
  listOf(each) {
    const { left: { elts }, right, op } = each;
    if (op === "Mult" && isKind(right, "Constant") && typeof right.value === "bigint") return node("List", { elts: range(0, Math.min(Number(right.value), 1000)).flatMap(() => elts) });
    return op === "Add" && isKind(right, "List") ? node("List", { elts: [...elts, ...right.elts] }) : each;
  }
}

/** The fields of an array of records. */
export function fieldsIn(format) {
  const found = [];
  let depth = 0;
  for (const [, field, brace] of format.matchAll(/:([^:]*):|([{}])/g)) {
    depth += { "{": 1, "}": -1 }[brace] ?? 0;
    if (!brace && depth === 1) found.push(field);
  }
  return found;
}

/** A bench in which lines are tried, with what is asked of its arrays. `files` are those that a line can load. */
export class Trial {
  constructor(bench, files = new Map()) { Object.assign(this, { bench, files }); }

  send(line) {
    const [, name] = /= load "([\w.-]+)"/.exec(line) ?? [], bytes = name && !this.bench.files.has(name) ? this.files.get(name) : undefined;
    if (bytes) this.bench.files.set(name, bytes);
    return this.bench.answer(line);
  }

  ask(line) {
    const reply = this.send(line);
    if (!reply.accepted) throw new Error(reply.text);
    return reply.text;
  }

  names() { return this.ask("names").split(/\s+/).slice(1).filter(Boolean); }
  array(name) { return arrayOf(this.bench, name); }
  fields(name) { return fieldsIn(this.ask(`format ${name}`)); }
}
