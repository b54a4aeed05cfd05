// A script in NumPy's lines: each leaves the types, the values and the shared memory that `bench` leaves, or says that it does not.
import { itemsOf, literal, wordsOf } from "./trace.mjs";

const BINARY = { add: ["+", "add"], sub: ["-", "subtract"], mul: ["*", "multiply"], fdiv: ["//", "floor_divide"], mod: ["%", "remainder"], and: ["&", "bitwise_and"],
  or: ["|", "bitwise_or"], xor: ["^", "bitwise_xor"], shl: ["<<", "left_shift"], shr: [">>", "right_shift"] };
const COMPARISONS = { eq: "==", ne: "!=", lt: "<", le: "<=", gt: ">", ge: ">=" };
const UNARY = { neg: ["-", "negative"], not: ["~", "invert"] };
const REDUCTIONS = new Set("sum prod min max any all argmin argmax".split(" "));
const PIECE = /("[^"]*"|b'(?:[^'\\]|\\.)*')|([@=<>!^]*T\{(?:[^:}]|:[^:]*:|\}(?=[:}\w]))*\})|([A-Za-z_]\w*)|([+-]?)(?<!\d)0+(?=\d)|[^]/g;
const TAKEN = new Set(("np False None True and as assert async await break class continue def del elif else except finally for from global if import in is lambda nonlocal "
  + "not or pass raise return try while with yield print").split(" "));
const LETTERS = { "?": "?", b: "i1", B: "u1", h: "i2", H: "u2", i: "i4", I: "u4", q: "i8", Q: "u8" };
const NOTE = "  # differs:";

/** The words of a line, without blanks inside: texts, types, operands with their index lists, tuples. Numbers have no zeros in front, which Python refuses. */
function wordsIn(line) {
  const words = [""];
  let depth = 0;
  for (const [piece, , , , sign] of line.matchAll(PIECE)) {
    const isBlank = piece === " " || piece === "\t", isSign = piece === "=";
    if (!depth && (isBlank || isSign || piece === "(") && words.at(-1)) words.push("");
    if (!isBlank) words[words.length - 1] += sign ?? piece;
    depth += piece === "(" || piece === "[" ? 1 : piece === ")" || piece === "]" ? -1 : 0;
    if (!depth && (isSign || piece === ")" || piece === "]")) words.push("");
  }
  return words.filter(Boolean);
}

/** The text of a dtype of NumPy. */
function dtype(kind) {
  if (!kind.fields.length) return `"${typestr(kind.text)}"`;
  const { fields, size } = kind, ends = [0, ...fields.map(({ at, kind: each }) => at + each.size)];
  const formats = fields.map(({ kind: each }) => dtype(each)), names = fields.map(({ name }) => JSON.stringify(name));
  if (fields.every(({ at }, k) => at === ends[k]) && ends.at(-1) === size) return `np.dtype([${names.map((name, k) => `(${name}, ${formats[k]})`).join(", ")}])`;
  return `np.dtype({"names": [${names.join(", ")}], "formats": [${formats.join(", ")}], "offsets": [${fields.map(({ at }) => at).join(", ")}], "itemsize": ${size}})`;
}

/** NumPy's text for a type that is no record: a type string already, or a member of a format text. */
function typestr(text) {
  const [, order, count, letter] = /^([<>|]?)(\d*)([?bBhHiIqQs])$/.exec(text) ?? [];
  if (!letter) return text.replace(/^\|/, "");
  return letter === "s" ? `S${count || 1}` : LETTERS[letter].endsWith("1") || letter === "?" ? LETTERS[letter] : order + LETTERS[letter];
}

const spaced = list => list.replace(/,(?=.)/g, ", ");
const tuple = shape => shape.length === 1 ? `(${shape[0]},)` : `(${shape.join(", ")})`;

/** A line and the states before and after it, as NumPy's lines say it. */
class Translation {
  constructor({ line, before, after }, names) { Object.assign(this, { words: wordsIn(line), before, after, renamed: names }); }

  name(word) { return this.renamed.get(word); }

  /** The lines; undefined where NumPy has none. */
  lines() {
    const [verb, first, ...more] = this.words;
    if (first === "=") return this.binding(verb, more);
    if (verb === "set") return this.set(first, more[1]);
    if (verb === "upd") return this.update(first, ...more);
    return this.question(verb, [first, ...more]);
  }

  question(verb, words) {
    const names = words.map(word => this.name(word) ?? word);
    if (verb === "del") return [`del ${names[0]}`];
    if (verb === "print") return [`print(${names[0]})`];
    if (verb === "save") return [`np.save(${words[1]}, ${names[0]})`];
    if (verb === "shares") return [`print(np.shares_memory(${names.join(", ")}))`];
    return undefined;
  }

  /** An operand, a name or a name with an index list, as NumPy reads it. Index arrays that `target` shares its memory with are copied first. */
  operand(text, target) {
    const [, name, index] = /^(\w+)(?:\[(.*)\])?$/.exec(text);
    return this.name(name) + (index === undefined ? "" : `[${this.index(index, target)}]`);
  }

  index(text, target) {
    return text.split(",").map(item => {
      const bound = this.before.names.get(item);
      return !bound ? item : this.name(item) + (bound.buffer === target ? ".copy()" : "");
    }).join(", ");
  }

  hasArrays(text) { return wordsOf(text.slice(text.indexOf("[") + 1)).some(word => this.before.names.has(word)) && text.includes("["); }

  /** The array that an operand begins with; undefined for a literal. */
  array(text) { return this.before.names.get(/^\w+(?=\[|$)/.exec(text)?.[0]); }

  /** A literal, or an operand. */
  value(text) { return this.array(text) ? this.operand(text) : itemsOf(text).map(literal).join(); }

  /** Whether an operand is a whole array in C order, so that NumPy's results are in C order too. */
  isPlain(text) { return !this.array(text) || this.array(text).array.order.includes("C") && !text.includes("["); }

  isPoint(text) { return this.array(text) && (text.includes("[") || !this.array(text).array.shape.length); }

  binding(name, [verb, ...rest]) {
    const bound = this.after.names.get(name), { kind, array: { shape } } = bound, x = this.name(name), to = dtype(kind), y = rest[0] && this.name(rest[0]);
    const whole = made => [`${x} = ${shape.length ? made : `np.asarray(${made})`}`];
    switch (rest.length && verb) {
      case "zeros": return [`${x} = np.zeros(${tuple(shape)}, ${to})`];
      case "full": return kind.fields.length ? [`${x} = np.zeros(${tuple(shape)}, ${to})`, `${x}[...] = ${this.value(rest[2])}`] : [`${x} = np.full(${tuple(shape)}, ${this.value(rest[2])}, ${to})`];
      case "arange": return [`${x} = np.arange(${rest.slice(1).join(", ")}, dtype=${to})`];
      case "array": return [`${x} = ${this.made(rest.slice(2), shape, to)}`];
      case "field": return [`${x} = ${y}[${JSON.stringify(rest[1].slice(1, -1))}]`];
      case "transpose": return [rest.length === 1 ? `${x} = ${y}.T` : `${x} = ${y}.transpose(${spaced(rest[1].slice(1, -1).replace(/,$/, ""))})`];
      case "reshape": return [`${x} = ${y}.reshape(${shape.join(", ") || "()"})`];
      case "broadcast": return [`${x} = np.broadcast_to(${y}, ${tuple(shape)})`];
      case "copy": return [`${x} = ${y}.copy(order="${rest[1]}")`];
      case "cast": return [`${x} = ${y}.astype(${to}, order="C")`];
      case "load": return [`${x} = np.load(${rest[0]})`];
    }
    if (UNARY[verb] && rest.length) return whole(this.isPlain(rest[0]) ? `${UNARY[verb][0]}${y}` : `np.${UNARY[verb][1]}(${this.operand(rest[0])}, order="C")`);
    if (BINARY[verb] && rest.length) return whole(this.binary(verb, rest, to));
    if (COMPARISONS[verb] && rest.length) return this.comparison(verb, rest, whole);
    if (REDUCTIONS.has(verb) && rest.length) return whole(this.reduction(verb, rest, shape));
    return [`${x} = ${this.taken(verb, shape)}`];
  }

  made(literals, shape, to) {
    const items = literals.map(text => this.value(text)).join(", ");
    return shape.length ? `np.array([${items}], ${to})${shape.length === 1 ? "" : `.reshape(${shape.join(", ")})`}` : `np.array(${items}, ${to})`;
  }

  binary(verb, [left, right], to) {
    const [y, z] = [this.operand(left), this.value(right)], [sign, call] = BINARY[verb];
    return this.isPlain(left) && this.isPlain(right) && !this.isPoint(left) && !this.isPoint(right) ? `${y} ${sign} ${z}` : `np.${call}(${y}, ${z}, order="C", dtype=${to})`;
  }

  comparison(verb, [left, right], whole) {
    const made = `${this.operand(left)} ${COMPARISONS[verb]} ${this.value(right)}`, types = [left, right].map(text => this.array(text)?.kind.text ?? "");
    const [line] = whole(this.isPlain(left) && this.isPlain(right) ? made : `np.array(${made}, order="C")`);
    return [line + (types.some(type => /u8$/.test(type)) && types.some(type => /i\d$/.test(type)) ? `${NOTE} NumPy before 2.0 compares floats` : "")];
  }

  reduction(verb, [name, ...more], shape) {
    const axis = more.find(word => /\d/.test(word)), keep = more.includes("keep") && "keepdims=True";
    const made = `${this.name(name)}.${verb}(${[axis !== undefined && `axis=${axis}`, keep].filter(Boolean).join(", ")})`;
    return this.isPlain(name) || !shape.length ? made : `np.array(${made}, order="C")`;
  }

  /** `X[ix]`, or all of `X`. `...` makes an array of what would be a scalar. */
  taken(text, shape) {
    const isPart = text.includes("["), whole = isPart && !shape.length && !text.includes("...") ? text.replace(/,?\]$/, ",...]") : text;
    return `${this.operand(isPart ? whole : `${text}[...]`)}${this.hasArrays(text) ? ".copy()" : ""}`;
  }

  hasArrays(text) { return text.includes("[") && wordsOf(text.slice(text.indexOf("["))).some(word => this.before.names.has(word)); }

  set(target, text) {
    const { buffer } = this.array(target), source = this.array(text), copied = source?.buffer === buffer && !this.hasArrays(text);
    return [`${this.operand(target, buffer)} = ${this.value(text)}${copied ? ".copy()" : ""}`];
  }

  update(target, verb, text) {
    const x = this.operand(target, this.array(target).buffer), z = this.value(text);
    return [COMPARISONS[verb] ? `${x} = ${x} ${COMPARISONS[verb]} ${z}` : `${x} ${BINARY[verb][0]}= ${z}`];
  }
}

/** The lines of a script in NumPy. What `undo` took back is left out, with the questions that were asked in between. A comment stands for a
 *  refused line, and for one that NumPy has no line for. */
export function inNumPy(moments) {
  const undone = new Set(), asked = new Set();
  for (const { undone: line, number } of moments.filter(moment => moment.undone)) {
    undone.add(line).add(number);
    for (let between = line; between < number; between++) asked.add(between);
  }
  const words = new Set(moments.flatMap(({ after }) => [...after.names.keys()])), renamed = new Map();
  for (const word of words) {
    let other = word;
    while (TAKEN.has(other) || other !== word && words.has(other)) other += "_";
    renamed.set(word, other);
  }
  const lines = moments.filter(({ number }) => !undone.has(number)).flatMap(moment => {
    const { line, reply, number } = moment;
    if (!line.trim() || line.trim()[0] === "#") return [line];
    const made = reply.accepted && !asked.has(number) ? new Translation(moment, renamed).lines() : undefined;
    return made ?? [`# ${line.trim()}${reply.accepted ? "" : ` (refused: ${reply.meaning})`}`];
  });
  return ["import numpy as np", ...lines, ""].join("\n");
}
