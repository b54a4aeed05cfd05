// Lines of Python, as far as NumPy's users type them: what Python's parser makes of a line, as plain nodes with the names of its module `ast`.

const KEYWORDS = new Set(("False None True and as assert async await break class continue def del elif else except finally for from global if import in is lambda nonlocal "
  + "not or pass raise return try while with yield").split(" "));
const SCANNED = new RegExp([
  String.raw`(?<text>(?<prefix>[rRbBfFuU]{0,2})(?<quote>'''|"""|'|")(?<inside>(?:\\[^]|(?!\k<quote>)[^\\])*)\k<quote>)`,
  String.raw`(?<number>0[xX](?:_?[0-9a-fA-F])+|0[oO](?:_?[0-7])+|0[bB](?:_?[01])+|(?:\d(?:_?\d)*\.(?:\d(?:_?\d)*)?|\.\d(?:_?\d)*|\d(?:_?\d)*)(?:[eE][+-]?\d(?:_?\d)*)?[jJ]?)`,
  String.raw`(?<word>[A-Za-z_]\w*)`,
  String.raw`(?<sign>\*\*=|//=|>>=|<<=|\.\.\.|\*\*|//|>>|<<|<=|>=|==|!=|->|:=|[-+*/%@&|^]=|[-+*/%@&|^~<>()[\]{},:.;=])`].join("|"), "y");
const AFTER_NUMBER = /^(?:and|else|for|if|in|is|or|not)\b/;
const ESCAPES = { a: "\x07", b: "\b", f: "\f", n: "\n", r: "\r", t: "\t", v: "\v", "\\": "\\", "'": "'", '"': '"', "\n": "" };
const ESCAPED = /\\(?:x([0-9a-fA-F]{2})|([0-7]{1,3})|u([0-9a-fA-F]{4})|U([0-9a-fA-F]{8})|([^]))/g;
const LEVELS = [{ "|": "BitOr" }, { "^": "BitXor" }, { "&": "BitAnd" }, { "<<": "LShift", ">>": "RShift" }, { "+": "Add", "-": "Sub" },
  { "*": "Mult", "/": "Div", "//": "FloorDiv", "%": "Mod", "@": "MatMult" }];
const SIGNS = Object.assign({ "**": "Pow" }, ...LEVELS), PREFIXES = { "-": "USub", "+": "UAdd", "~": "Invert" };
const COMPARED = { "==": "Eq", "!=": "NotEq", "<": "Lt", "<=": "LtE", ">": "Gt", ">=": "GtE", in: "In", is: "Is" };
// The fields of each kind of node that hold nodes, in Python's order.
const HELD = { Attribute: ["value"], Subscript: ["value", "slice"], Slice: ["lower", "upper", "step"], Call: ["func", "args", "keywords"], keyword: ["value"], BinOp: ["left", "right"],
  UnaryOp: ["operand"], BoolOp: ["values"], Compare: ["left", "comparators"], Tuple: ["elts"], List: ["elts"], Set: ["elts"], Dict: ["keys", "values"], Starred: ["value"],
  Lambda: ["body"], IfExp: ["test", "body", "orelse"], Comp: ["elts", "iters"], NamedExpr: ["target", "value"], Await: ["value"], Yield: ["value"], JoinedStr: ["values"] };

export const ELLIPSIS = Symbol("...");
/** Values of Python that JavaScript has not: integers are BigInt, None is null, a list is an Array. */
export class Bytes { constructor(text) { this.text = text; } }
export class Tuple extends Array {}
export class Float {}
export class NotPython extends Error {}

export const node = (kind, fields) => ({ kind, ...fields });
export const constantOf = value => node("Constant", { value });
export const nameOf = id => node("Name", { id });
export const isKind = (each, ...kinds) => kinds.includes(each?.kind);

/** A node and all that are below it, level by level. */
export function walk(first) {
  const found = [first];
  for (const each of found) for (const field of HELD[each.kind] ?? []) found.push(...[each[field]].flat().filter(Boolean));
  return found;
}

/** A change of all nodes of a kind, from below: `change` has a function for each kind that it changes. */
export function transformed(each, change) {
  const inner = below => {
    for (const field of HELD[below.kind] ?? []) {
      const held = below[field];
      if (Array.isArray(held)) held.forEach((one, k) => { held[k] = one && transformed(one, change); });
      else if (held) below[field] = transformed(held, change);
    }
    return below;
  };
  return change[each.kind]?.(each, inner) ?? inner(each);
}

function valueOfNumber(text) {
  const digits = text.replaceAll("_", "");
  if (/^0[xob]/i.test(digits)) return BigInt(digits.toLowerCase());
  if (!/^\d+$/.test(digits)) return new Float();
  if (/^0+[1-9]/.test(digits)) throw new NotPython();
  return BigInt(digits);
}

function unescaped(inside, isBytes) {
  return inside.replace(ESCAPED, (whole, hex, octal, short, long, letter) => {
    if (hex ?? octal) return String.fromCharCode(parseInt(hex ?? octal, hex ? 16 : 8) & (isBytes ? 255 : 511));
    if ((short || long) && !isBytes) return String.fromCodePoint(parseInt(short ?? long, 16));
    if (letter === "x" || !isBytes && "uUN".includes(letter ?? "")) throw new NotPython();
    return ESCAPES[letter] ?? whole;
  });
}

/** The words of a line. */
function scanned(line) {
  const found = [];
  let at = 0;
  for (;;) {
    at += /^[ \t\f]*/.exec(line.slice(at))[0].length;
    if (at >= line.length || line[at] === "#") break;
    SCANNED.lastIndex = at;
    const { 0: text, groups } = SCANNED.exec(line) ?? { 0: "" };
    at += text.length;
    if (!text || groups.number && /^\w/.test(line.slice(at)) && !AFTER_NUMBER.test(line.slice(at))) throw new NotPython();
    found.push(groups.text !== undefined ? { text: "", string: groups } : groups.number ? { text: "", value: valueOfNumber(text) } : { text, isName: Boolean(groups.word) && !KEYWORDS.has(text) });
  }
  return [...found, { text: "", isEnd: true }];
}

class Parser {
  constructor(line) { Object.assign(this, { words: scanned(line), at: 0 }); }

  get word() { return this.words[this.at]; }
  is(...texts) { return texts.includes(this.word.text) && this.word.text !== ""; }
  take(...texts) { return this.is(...texts) ? this.words[this.at++].text : ""; }
  want(text) { return this.take(text) || this.fail(); }
  fail() { throw new NotPython(); }
  name() { return this.word.isName ? this.words[this.at++].text : this.fail(); }

  // Statements.

  statements() {
    const made = [];
    while (!this.word.isEnd) {
      made.push(this.statement());
      if (!this.word.isEnd) this.want(";");
    }
    return made;
  }

  statement() {
    if (this.take("pass", "break", "continue")) return node(this.words[this.at - 1].text, {});
    if (this.take("del")) return this.deletion();
    const first = this.several();
    const sign = this.word.text;
    if (sign === "=") return this.assignment(first);
    if (/^.+=$/.test(sign) && SIGNS[sign.slice(0, -1)]) {
      this.at += 1;
      if (!isKind(first, "Name", "Attribute", "Subscript")) this.fail();
      return node("AugAssign", { target: first, op: SIGNS[sign.slice(0, -1)], value: this.several() });
    }
    if (!this.take(":")) return node("Expr", { value: first });
    if (!isKind(first, "Name", "Attribute", "Subscript")) this.fail();
    this.expression();
    return node("AnnAssign", { target: first, value: this.take("=") ? this.several() : null });
  }

  assignment(first) {
    const all = [first];
    while (this.take("=")) all.push(this.several());
    const value = all.pop();
    if (!all.every(each => this.isTarget(each))) this.fail();
    return node("Assign", { targets: all, value });
  }

  isTarget(each) {
    return isKind(each, "Name", "Attribute", "Subscript") || isKind(each, "Tuple", "List") && each.elts.every(one => this.isTarget(isKind(one, "Starred") ? one.value : one));
  }

  deletion() {
    const found = this.several(), targets = found.kind === "Tuple" && !found.isClosed ? found.elts : [found];
    return targets.every(each => this.isTarget(each)) ? node("Delete", { targets }) : this.fail();
  }

  // Expressions, from the loosest to the tightest.

  /** An expression, or several with commas between them, which are a tuple. */
  several() {
    if (this.take("yield")) return node("Yield", { value: this.word.isEnd || this.is(")") ? null : this.several() });
    const first = this.starred();
    if (!this.is(",")) return isKind(first, "Starred") ? this.fail() : first;
    const elts = [first];
    while (this.take(",")) if (this.begins()) elts.push(this.starred()); else break;
    return node("Tuple", { elts });
  }

  /** Whether an expression begins here. */
  begins() { return !this.word.isEnd && !this.is(")", "]", "}", "=", ":", ";", "for", "if", "else") && !/^[-+*/%@&|^<>]+=$/.test(this.word.text.replace(/^[<>]=$/, "")); }

  starred() { return this.take("*") ? node("Starred", { value: this.level(0) }) : this.named(); }

  named() {
    const first = this.expression();
    if (!this.take(":=")) return first;
    return isKind(first, "Name") ? node("NamedExpr", { target: first, value: this.expression() }) : this.fail();
  }

  expression() {
    if (this.take("lambda")) return this.lambda();
    const body = this.either();
    if (!this.take("if")) return body;
    const test = this.either();
    this.want("else");
    return node("IfExp", { test, body, orelse: this.expression() });
  }

  lambda() {
    while (!this.is(":")) {
      this.take("**") || this.take("*");
      if (this.word.isName) this.name();
      if (this.take("=")) this.expression();
      if (!this.take(",") && !this.is(":")) this.fail();
    }
    this.want(":");
    return node("Lambda", { body: this.expression() });
  }

  joined(word, op, inner) {
    const values = [inner()];
    while (this.take(word)) values.push(inner());
    return values.length > 1 ? node("BoolOp", { op, values }) : values[0];
  }

  either() { return this.joined("or", "Or", () => this.joined("and", "And", () => this.inversion())); }
  inversion() { return this.take("not") ? node("UnaryOp", { op: "Not", operand: this.inversion() }) : this.comparison(); }

  comparison() {
    const left = this.level(0), ops = [], comparators = [];
    for (let op = this.compared(); op; op = this.compared()) {
      ops.push(op);
      comparators.push(this.level(0));
    }
    return ops.length ? node("Compare", { left, ops, comparators }) : left;
  }

  compared() {
    const sign = this.take(...Object.keys(COMPARED)) || this.is("not") && this.words[this.at + 1].text === "in" && this.take("not");
    if (sign === "not") return this.want("in") && "NotIn";
    if (sign === "is" && this.take("not")) return "IsNot";
    return sign ? COMPARED[sign] : "";
  }

  level(k) {
    if (k === LEVELS.length) return this.factor();
    let left = this.level(k + 1);
    for (let sign = this.take(...Object.keys(LEVELS[k])); sign; sign = this.take(...Object.keys(LEVELS[k]))) left = node("BinOp", { op: LEVELS[k][sign], left, right: this.level(k + 1) });
    return left;
  }

  factor() {
    const sign = this.take("-", "+", "~");
    if (sign) return node("UnaryOp", { op: PREFIXES[sign], operand: this.factor() });
    const base = this.take("await") ? node("Await", { value: this.primary() }) : this.primary();
    return this.take("**") ? node("BinOp", { op: "Pow", left: base, right: this.factor() }) : base;
  }

  primary() {
    let value = this.atom();
    for (;;) {
      if (this.take(".")) value = node("Attribute", { value, attr: this.name() });
      else if (this.take("(")) value = this.call(value);
      else if (this.take("[")) value = node("Subscript", { value, slice: this.slices() });
      else return value;
    }
  }

  slices() {
    const first = this.slice(), elts = [first], isTuple = this.is(",") || isKind(first, "Starred");
    while (this.take(",")) if (this.is("]")) break; else elts.push(this.slice());
    this.want("]");
    return isTuple ? node("Tuple", { elts }) : first;
  }

  slice() {
    if (this.is("*")) return this.starred();
    const part = () => this.is(":", ",", "]") ? null : this.expression(), lower = this.is(":") ? null : this.named();
    if (!this.take(":")) return lower ?? this.fail();
    const upper = part();
    return node("Slice", { lower, upper, step: this.take(":") ? part() : null });
  }

  call(func) {
    const args = [], keywords = [];
    while (!this.take(")")) {
      this.argument(args, keywords);
      if (!this.is(")")) this.want(",");
    }
    return node("Call", { func, args, keywords });
  }

  argument(args, keywords) {
    const isWord = this.word.isName && this.words[this.at + 1].text === "=", isLast = keywords.length > 0;
    if (this.take("**")) keywords.push(node("keyword", { arg: null, value: this.expression() }));
    else if (this.take("*")) args.push(node("Starred", { value: this.expression() }));
    else if (isWord) {
      const arg = this.name();
      this.want("=");
      keywords.push(node("keyword", { arg, value: this.expression() }));
    } else {
      const value = this.named();
      if (isLast) this.fail();
      if (!this.is("for", "async")) args.push(value);
      else if (args.length) this.fail();
      else { args.push(this.comprehension([value])); if (!this.is(")")) this.fail(); }
    }
  }

  /** The rest of `x for x in y if z`: `x in y` reads as a comparison. */
  comprehension(elts) {
    const iters = [];
    while (this.take("for")) {
      const target = this.several(), last = isKind(target, "Tuple") ? target.elts.at(-1) : target;
      if (!isKind(last, "Compare") || last.ops[0] !== "In") this.fail();
      iters.push(target);
      while (this.take("if")) iters.push(this.either());
    }
    return iters.length ? node("Comp", { elts, iters }) : this.fail();
  }

  atom() {
    const { word } = this;
    if (word.string) return this.strings();
    if (word.value !== undefined) { this.at += 1; return constantOf(word.value); }
    if (word.isName) return nameOf(this.name());
    switch (this.take("(", "[", "{", "...", "None", "True", "False")) {
      case "(": return this.parenthesis();
      case "[": return this.list();
      case "{": return this.braces();
      case "...": return constantOf(ELLIPSIS);
      case "None": return constantOf(null);
      case "True": return constantOf(true);
      case "False": return constantOf(false);
    }
    return this.fail();
  }

  parenthesis() {
    if (this.take(")")) return node("Tuple", { elts: [], isClosed: true });
    const found = this.is("yield") ? this.several() : this.starred();
    if (this.is("for", "async")) { const made = this.comprehension([found]); this.want(")"); return made; }
    const elts = [found], isTuple = this.is(",");
    while (this.take(",")) if (this.is(")")) break; else elts.push(this.starred());
    this.want(")");
    if (isTuple) return node("Tuple", { elts, isClosed: true });
    return isKind(found, "Starred") ? this.fail() : { ...found, isClosed: true };
  }

  list() {
    const elts = [];
    while (!this.take("]")) {
      elts.push(this.starred());
      if (this.is("for", "async") && elts.length === 1) { const made = this.comprehension(elts); this.want("]"); return made; }
      if (!this.is("]")) this.want(",");
    }
    return node("List", { elts });
  }

  braces() {
    const keys = [], values = [];
    while (!this.take("}")) {
      keys.push(this.take("**") ? null : this.starred());
      if (keys.at(-1) === null || this.take(":")) values.push(this.expression());
      if (this.is("for", "async")) { const made = this.comprehension([...keys, ...values]); this.want("}"); return made; }
      if (!this.is("}")) this.want(",");
    }
    return values.length || !keys.length ? node("Dict", { keys, values }) : node("Set", { elts: keys });
  }

  /** Strings one after another are one. */
  strings() {
    const found = [];
    while (this.word.string) found.push(this.words[this.at++].string);
    const kinds = found.map(({ prefix }) => prefix.toLowerCase());
    if (kinds.some(kind => !["", "r", "b", "f", "u", "br", "rb", "fr", "rf"].includes(kind)) || new Set(kinds.map(kind => kind.includes("b"))).size > 1) this.fail();
    const texts = found.map(({ inside }, k) => kinds[k].includes("r") ? inside : unescaped(inside, kinds[k].includes("b")));
    if (kinds.some(kind => kind.includes("f"))) return node("JoinedStr", { values: texts.flatMap((text, k) => kinds[k].includes("f") ? this.filled(text) : []) });
    return constantOf(kinds[0].includes("b") ? new Bytes(texts.join("")) : texts.join(""));
  }

  filled(text) { return [...text.replaceAll("{{", "").matchAll(/\{([^{}!:=]+)/g)].map(([, inner]) => expressionOf(inner)); }
}

/** The statements of a line. It throws where Python's parser does. */
export function statementsOf(line) { return new Parser(line).statements(); }

/** The expression of a text. */
export function expressionOf(text) {
  const parser = new Parser(text), found = parser.several();
  return parser.word.isEnd ? found : parser.fail();
}

/** The value of a node of literals, as Python's `ast.literal_eval` has it; undefined where it is none. */
export function valueOf(each) {
  const number = one => isKind(one, "Constant") && (typeof one.value === "bigint" || one.value instanceof Float) ? one.value : undefined;
  const signed = one => {
    if (!isKind(one, "UnaryOp") || !["USub", "UAdd"].includes(one.op)) return number(one);
    const found = number(one.operand);
    return typeof found === "bigint" && one.op === "USub" ? -found : found;
  };
  if (isKind(each, "Constant")) return each.value;
  if (!isKind(each, "Tuple", "List")) return signed(each);
  const found = each.elts.map(valueOf);
  return found.includes(undefined) ? undefined : each.kind === "Tuple" ? Tuple.from(found) : found;
}
