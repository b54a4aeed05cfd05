// Expressions of NumPy as lines: each is what follows `X =`, and what it holds within is bound to free names first.
import { Bytes, ELLIPSIS, constantOf, expressionOf, isKind, nameOf, node, transformed } from "./python.mjs";
import { FLOAT_WORD, Lines, Misfit, PLAIN_NAME, TYPE_WORD, along, flat, itemAt, letterOf, literalOf, memberOf, refuse, shapeOf, shaped, stretched } from "./tried.mjs";
import { range } from "./trace.mjs";

const OPERAND = /^[A-Za-z_]\w*(\[.*\])?$/, OF_OPERAND = /^[A-Za-z_]\w*(\[|$)/;
const MODULES = ["np", "numpy", "bench"], BUILTINS = ["sum", "max", "min", "any", "all"], QUANTITIES = ["number", "none", "tuple", "array"];
const KINDS = { bool: "b", integer: "iu", unsigned: "bu" };
// The functions that take several lines, each with its parameters: those it must have, and the others.
const SEVERAL = { where: [["condition", "x", "y"]], concatenate: [["arrays"], ["more", "axis"]], stack: [["arrays"], ["axis"]], flip: [["m"], ["axis"]], squeeze: [["a"], ["axis"]],
  expand_dims: [["a", "axis"]], swapaxes: [["a", "axis1", "axis2"]], moveaxis: [["a", "source", "destination"]] };

export const isSeveral = word => Object.hasOwn(SEVERAL, word);
const isNone = each => isKind(each, "Constant") && each.value === null;
/** Nested tuples as lists: rows, where the type is no record. */
const asRows = each => isKind(each, "Tuple", "List") ? node("List", { elts: each.elts.map(asRows) }) : each;
/** Takes an argument out of those that are given by name. */
const popped = (named, name) => { const found = named.get(name); named.delete(name); return found; };
const without = (list, ...taken) => list.splice(0, list.length, ...list.filter(each => !taken.includes(each)));

/** The lines of expressions. */
export class Expressions extends Lines {
  /** A dtype as a type. */
  type(each) {
    if (!each) return "<i8";
    const { rules } = this;
    if (isKind(each, "List")) {
      const fields = each.elts.map(field => this.constant(field));
      if (fields.some(field => field.length !== 2 || typeof field[1] !== "string")) refuse("a field has a name and a type: an array or a record within is made field by field");
      return `T{${fields.map(([name, kind]) => `${memberOf(this.type(constantOf(kind)))}:${name}:`).join("")}}`;
    }
    if (isKind(each, "Attribute") && each.attr === "dtype") return this.info(this.operand(each.value)).type;
    const word = isKind(each, "Attribute") ? each.attr : isKind(each, "Name") ? each.id : literalOf(this.constant(each));
    if (FLOAT_WORD.test(word)) refuse(rules.NO_FLOATS);
    if (/^([<>|=]?U\d*|str)$/.test(word)) refuse(rules.NO_TEXT);
    const [isFound, order, letter, size, length] = TYPE_WORD.exec(word) ?? [];
    if (isFound === undefined) return rules.type(word) ?? (word.startsWith("T{") ? word : refuse());
    return (size === "1" || size === undefined ? "|" : order === ">" ? ">" : "<") + (letter ? letter + size : length ? `S${length}` : "b1");
  }

  /** An operand: a name, a name with an index, or a literal. */
  operand(each) {
    if (this.isConstant(each)) return this.literal(each);
    const text = this.value(each);
    return OPERAND.test(text) ? text : this.bound(text);
  }

  /** A value as a name, to be read. */
  name(each) { return isKind(each, "Name") ? each.id : this.bound(this.value(each)); }

  /** A value as a name of which a view is made. A number of an array is a copy, as it is in NumPy. */
  base(each) {
    if (isKind(each, "Name")) return each.id;
    const text = this.value(each);
    return this.bound(this.isScalar(each, text) ? `copy ${this.bound(text)} C` : text);
  }

  /** What follows `X =`. */
  value(each) {
    switch (each?.kind) {
      case "Name": return each.id;
      case "Constant": return this.ofConstant(each);
      case "List": case "Tuple": return this.ofList(each);
      case "Subscript": return this.subscript(each);
      case "Attribute": return this.attribute(each);
      case "BinOp": return this.binary(each);
      case "Compare": return this.compared(each);
      case "BoolOp": return this.joined(each);
      case "UnaryOp": return this.unary(each);
      case "Call": return this.called(each);
    }
    return refuse();
  }

  ofConstant(each) { return `full ${this.rules.kindOfItems([this.constant(each)])} () ${this.literal(each)}`; }

  ofList(each, kind = "") {
    if (!flat(node("List", { elts: each.elts })).every(item => this.isConstant(item))) return kind ? refuse() : this.several("stack", [each], new Map());
    const isRecord = kind.startsWith("T");
    if (isRecord && isKind(each, "Tuple")) return `full ${kind} () ${this.literal(each)}`;
    const values = this.constant(node("List", { elts: each.elts.map(one => isRecord ? one : asRows(one)) })), shape = shapeOf(values), items = flat(values);
    if (!items.length && !kind) refuse("an empty list is one of floats in NumPy: write its type, as `array <i8 (0)`");
    const type = kind || this.rules.kindOfItems(items);
    return [`array ${type} ${shaped(shape)}`, ...items.map(item => typeof item === "string" ? this.ofText(constantOf(item), type) : literalOf(item))].join(" ");
  }

  subscript(each, isTarget = false) {
    const base = this.base(each.value), key = each.slice;
    if (isKind(key, "Constant") && typeof key.value === "string") return `field ${base} "${key.value}"`;
    if (isKind(key, "List") && key.elts.some(one => isKind(one, "Constant") && typeof one.value === "string")) refuse("one field at a time");
    const nodes = isKind(key, "Tuple") ? key.elts : [key], entries = nodes.map(one => this.entry(one));
    const isPoint = (one, text) => !this.isNumber(one) && PLAIN_NAME.test(text) && text !== "None" && !this.info(text).shape.length;
    if (!isTarget && nodes.some((one, k) => isPoint(one, entries[k])) && entries.length < this.info(base).shape.length) refuse("an index that is an array makes a copy here: write the number");
    return `${base}[${entries.join(",") || "..."}]`;
  }

  /** An entry of an index. */
  entry(each) {
    if (isKind(each, "Slice")) {
      const parts = [each.lower, each.upper, each.step].map(part => !part || isNone(part) ? "" : literalOf(this.number(part)));
      return (parts[2] ? parts : parts.slice(0, 2)).join(":");
    }
    if (isKind(each, "Constant") && (each.value === null || each.value === ELLIPSIS)) return each.value === ELLIPSIS ? "..." : "None";
    if (isKind(each, "Attribute") && each.attr === "newaxis") return "None";
    if (isKind(each, "List") && !each.elts.length) return this.bound("array <i8 (0)");
    return this.isNumber(each) && typeof this.constant(each) !== "boolean" ? literalOf(this.number(each)) : this.name(each);
  }

  attribute(each) {
    if (isKind(each.value, "Name") && MODULES.includes(each.value.id)) refuse(this.rules.reason(each.attr) ?? `there is no \`${each.attr}\``);
    const base = this.base(each.value);
    if (each.attr === "T") return `transpose ${base}`;
    return this.trial.fields(base).includes(each.attr) ? `field ${base} "${each.attr}"` : refuse();
  }

  binary(each) {
    if (each.op === "Pow") return this.power(each);
    if (each.op === "Div") refuse("there are no floats: `//` is fdiv, which rounds down");
    return this.two(this.rules.OPERATORS[each.op] ?? refuse("there is no power and no `@`"), each.left, each.right);
  }

  /** A square or a cube. */
  power({ left, right }) {
    if (!isKind(right, "Constant") || right.value !== 2n && right.value !== 3n) refuse("there is no power but `** 2` and `** 3`, by `mul`");
    const base = this.operand(left);
    if (this.isConstant(left) || !"iu".includes(letterOf(this.info(base).type))) refuse();
    this.checkTypes("mul", base, "2");
    return right.value === 2n ? `mul ${base} ${base}` : `mul ${this.bound(`mul ${base} ${base}`)} ${base}`;
  }

  compared({ left, ops, comparators }) {
    if (ops.length > 1) refuse("one comparison at a time; `&` joins two");
    if (["Is", "IsNot"].includes(ops[0])) refuse("`shares a b` says whether two arrays have items in common");
    return this.two(this.rules.OPERATORS[ops[0]] ?? refuse(), left, comparators[0]);
  }

  /** Notes that `and`, `or` and `not` take the truth of a whole array. */
  noteTruth(...words) { this.reasons.push(this.rules.AND.replace(/\{(\d)\}/g, (_, k) => words[k])); }

  joined({ op, values }) {
    this.noteTruth(...op === "And" ? ["and", "&"] : ["or", "|"]);
    if (values.length !== 2 || values.some(each => isKind(each, "Name") && letterOf(this.info(this.operand(each)).type) !== "b")) refuse();
    return this.two(op === "And" ? "and" : "or", ...values);
  }

  unary(each) {
    if (this.isConstant(each)) return this.ofConstant(each);
    if (each.op === "Not") {
      this.noteTruth("not", "~");
      return this.call("logical_not", [each.operand], new Map());
    }
    return each.op === "UAdd" ? this.call("positive", [each.operand], new Map()) : `${this.rules.OPERATORS[each.op]} ${this.operand(each.operand)}`;
  }

  /** An operation, whose first operand is an array. */
  two(verb, left, right) {
    if (this.isConstant(left) && this.isConstant(right)) refuse();
    if (!this.isConstant(left)) {
      const first = this.operand(left), second = this.operand(right);
      this.checkTypes(verb, first, second);
      return `${verb} ${first} ${second}`;
    }
    const other = this.operand(right);
    this.checkTypes(verb, other, this.literal(left));
    if (Object.hasOwn(this.rules.TURNED, verb)) return `${this.rules.TURNED[verb]} ${other} ${this.literal(left)}`;
    const kind = this.info(other).type, made = this.bound(`full ${kind === "|b1" && typeof this.constant(left) !== "boolean" ? "<i8" : kind} () ${this.literal(left)}`);
    return `${verb} ${made} ${other}`;
  }

  /** Refuses a number together with an array or a literal where the type of the result depends on the version of NumPy. */
  checkTypes(verb, ...texts) {
    const arrays = texts.filter(text => OF_OPERAND.test(text) && !["True", "False"].includes(text)).map(text => this.info(text)), [one, other] = arrays;
    const isMixed = arrays.length === 2 && one.type !== other.type && Boolean(one.shape.length) !== Boolean(other.shape.length);
    const isAlone = arrays.length === 1 && !one.shape.length && !["<i8", "|b1"].includes(one.type) && one.type[1] !== "S";
    if (!this.rules.comparisons.includes(verb) && (isMixed || isAlone)) refuse("the type of a number of an array with one of another type depends on the version of NumPy: `cast` says which is meant");
  }

  // Calls.

  /** A function, or a method with its array as the first argument. */
  called({ func, args, keywords }) {
    const given = [...args], named = new Map(keywords.map(({ arg, value }) => [arg ?? "", value])), of = func.value;
    if (given.some(each => isKind(each, "Starred"))) refuse();
    if (!isKind(func, "Name", "Attribute")) refuse();
    const word = isKind(func, "Name") ? func.id : func.attr;
    let module = isKind(func, "Name") ? "" : isKind(of, "Name") && MODULES.includes(of.id) ? of.id : "method";
    if (isKind(func, "Attribute") && word === "outer" && isKind(of, "Attribute") && given.length === 2) {
      const first = this.bound(`${this.name(given[0])}[:,None]`);
      return this.call(of.attr, [nameOf(first), given[1]], named);
    }
    if (module === "method" && isKind(of, "Attribute") && isKind(of.value, "Name") && ["np", "numpy"].includes(of.value.id)) refuse(this.rules.reason(word) ?? `there is no \`${word}\``);
    if (module === "method") given.unshift(of);
    try {
      return !module && BUILTINS.includes(word) && !named.size ? this.builtin(word, given, named) : this.call(word, given, named, module);
    } catch (fault) {
      return fault instanceof Misfit || fault instanceof TypeError ? refuse() : (() => { throw fault; })(); // too few arguments, or others than a piece can read
    }
  }

  /** A function of Python, which goes along the first axis. */
  builtin(word, given, named) {
    if (given.length !== 1) return this.call(word, given, named);
    const array = this.info(this.operand(given[0]));
    if (array.shape.length !== 1) refuse(`Python's \`${word}\` goes along the first axis; NumPy's is np.${word}, as \`${word} a\``);
    if (word === "sum" && array.type !== "<i8") refuse(`Python's \`sum\` has another type than NumPy's: np.sum(a) is \`sum a\`, of type ${array.type[1] === "u" ? "<u8" : "<i8"}`);
    return this.call(word, given, named);
  }

  /** What follows `X =` for a function with these arguments. */
  call(raw, given, named, module = "") {
    const { rules } = this, word = rules.word(raw);
    for (const { parameters, condition, made } of rules.calls.get(word) ?? []) {
      const values = this.fitted(parameters, given, named);
      if (!values) continue;
      if (this.holds(condition, values)) return this.byRule(made, values);
      given = parameters.slice(0, given.length).map(parameter => values[parameter]); // what was bound to look at it stays bound
      named = new Map([...named.keys()].map(name => [name, values[name]]));
    }
    if (isSeveral(word)) return this.several(word, given, named);
    if (["ones", "eye", "identity", "zeros"].includes(word) && !named.get("dtype") && !given.some(each => rules.isType(each))) {
      if (!["np", "numpy"].includes(module) && ["ones", "zeros"].includes(word)) return this.command(...word === "ones" ? ["full", [...given, constantOf(1n)]] : [word, given], named);
      refuse(`without a type NumPy makes floats, and there are none: write \`${raw}(.., int)\``);
    }
    if (word === "asarray") return this.asArray(given, named);
    if (rules.operations.OP.includes(word) && given.length === 2 && !named.size) return this.two(word, ...given);
    if (["max", "min"].includes(word) && given.length === 2 && !this.isConstant(given[1]) && !named.size) return this.call(`${word}imum`, given, named);
    if (!rules.verbs.has(word)) refuse(rules.reason(raw) ?? (given.length && !rules.reserved.has(raw) ? `there is no \`${raw}\`` : ""));
    return this.command(word, given, named);
  }

  /** The arguments by their parameters, or nothing if they are others. */
  fitted(parameters, given, named) {
    if (given.length > parameters.length) return undefined;
    const names = [...parameters.slice(0, given.length), ...named.keys()];
    if (new Set(names).size !== names.length || names.length !== parameters.length || !names.every(name => parameters.includes(name))) return undefined;
    return Object.fromEntries([...given.map((each, k) => [parameters[k], each]), ...named]);
  }

  /** Whether the arguments are as a condition says. */
  holds(condition, values) {
    return condition.split(",").filter(each => each.trim()).every(each => this.isSo(...each.trim().split(/\s+/), values));
  }

  isSo(what, parameter, values) {
    const each = values[parameter], isGroup = isKind(each, "List", "Tuple") && each.elts.length > 0;
    if (QUANTITIES.includes(what)) {
      return { number: this.isNumber(each), none: isNone(each), tuple: isKind(each, "Tuple"), array: !this.isConstant(each) && !isNone(each) && !isKind(each, "List") || isGroup && parameter === "indices" }[what];
    }
    if (what === "0") return this.isNumber(each) && [0n, false].includes(this.constant(each));
    if (this.isConstant(each) && !isGroup) return false;
    const nodes = (isGroup ? each.elts : [each]).map(one => this.simple(one));
    if (isGroup) each.elts = nodes;
    else [values[parameter]] = nodes;
    const arrays = nodes.map(one => this.info(this.operand(one)));
    if (/^\d+$/.test(what)) return arrays.every(array => array.shape.length === Number(what));
    if (what === "C") return arrays[0].order.includes("C");
    if (what === "copies") return this.trial.send(`_copy = reshape ${this.operand(nodes[0])} (-1)`).text.endsWith("copy") && this.trial.send("del _copy").accepted;
    return arrays.every(array => KINDS[what].includes(letterOf(array.type)));
  }

  /** An argument that may stand in several places: an expression is bound first. */
  simple(each) {
    const isPlain = isKind(each, "Name", "List", "Tuple", "Attribute", "Constant") || this.isConstant(each) || this.rules.isType(each);
    return isPlain && !(isKind(each, "Attribute") && each.attr === "T") ? each : nameOf(this.base(each));
  }

  /** What a call is by its rule. */
  byRule(made, values) {
    if (typeof made !== "string") return this.byLines(made, values);
    if (made.startsWith("!")) refuse(made.slice(1));
    const given = Object.fromEntries(Object.entries(values).map(([name, each]) => [name, this.simple(each)]));
    const filled = transformed(expressionOf(made), { Name: each => Object.hasOwn(given, each.id) ? given[each.id] : each });
    return isKind(filled, "Name") ? filled.id : this.value(this.folded(filled));
  }

  byLines(made, values) {
    const texts = {}, isTwice = made.filter(line => line.includes("$x")).length > 1 || !made.at(-1).startsWith("$x =");
    for (const [name, each] of Object.entries(values)) texts[name] = name === "dtype" ? this.type(each) : this.isConstant(each) ? this.operand(each) : this.base(each);
    texts.x = isTwice ? this.goal || this.free() : "";
    for (const word of "tuv") if (made.some(line => line.includes(`$${word}`))) texts[word] = this.free();
    const lines = made.map(line => line.replace(/\$(\w+)/g, (_, name) => texts[name]));
    for (const line of texts.x ? lines : lines.slice(0, -1)) this.write(line);
    return texts.x || lines.at(-1).replace(/^.*?= /, "");
  }

  /** A shape: an integer, or several. */
  lengths(each) {
    const found = this.constant(each), lengths = Array.isArray(found) ? [...found] : [found];
    return lengths.every(length => typeof length === "bigint") ? lengths : refuse();
  }

  /** A command of the language with these arguments. */
  command(word, given, named) {
    const { rules } = this, isType = each => rules.isType(each);
    if (word === "full" && !given.some(isType) && !named.has("dtype")) named.set("dtype", constantOf(rules.kindOfItems([this.constant(itemAt(given, -1))])));
    if (word === "array") return this.array(given, named);
    const types = given.filter(isType), others = given.filter(each => !isType(each));
    if (word === "arange" && others.length < 2) others.unshift(constantOf(0n));
    if (word === "arange" && others.length < 3) others.push(constantOf(1n));
    return this.form(word, types.length < 2 ? [...types, ...others] : refuse(), named);
  }

  /** An array of literals, or of another array. */
  array(given, named) {
    const kind = popped(named, "dtype") ?? given.find(each => this.rules.isType(each)), others = given.filter(each => each !== kind), [first] = others;
    if (named.size || !others.length) refuse();
    if (others.length > 1) return this.ofLiterals(this.type(kind), others);
    if (isKind(first, "List", "Tuple")) return this.ofList(first, kind ? this.type(kind) : "");
    if (this.isConstant(first)) return `full ${kind ? this.type(kind) : this.rules.kindOfItems([this.constant(first)])} () ${this.literal(first)}`;
    const array = this.name(first);
    return kind ? `cast ${array} ${this.type(kind)}` : `copy ${array} C`;
  }

  /** An array of literals; or the array itself, if it has the type that is asked for. */
  asArray(given, named) {
    const kind = named.get("dtype") ?? given[1], first = itemAt(given, 0), isArray = !this.isConstant(first) && !isKind(first, "List");
    return isArray && (!kind || this.type(kind) === this.info(this.operand(first)).type) ? this.value(first) : this.array(given, named);
  }

  /** An array of literals with its shape before them; numbers may be the shape if so many literals follow. */
  ofLiterals(kind, nodes) {
    if (isKind(nodes[0], "Tuple", "List")) return this.ofShape(kind, this.lengths(nodes[0]), nodes.slice(1).flatMap(flat));
    const numbers = nodes.map(each => this.constant(each));
    const begin = range(1, numbers.length).find(k => numbers.slice(0, k).every(each => typeof each === "bigint") && numbers.slice(0, k).reduce((left, right) => left * right, 1n) === BigInt(numbers.length - k));
    return begin ? this.ofShape(kind, numbers.slice(0, begin), nodes.slice(begin)) : this.ofShape(kind, [nodes.length], nodes);
  }

  ofShape(kind, shape, values) { return [`array ${kind} ${shaped(shape)}`, ...values.map(value => this.ofText(value, kind))].join(" "); }

  /** A literal; a text stands for a byte string where the type says so. */
  ofText(each, kind) {
    const found = this.constant(each);
    return typeof found === "string" && kind.startsWith("|S") ? literalOf(new Bytes(found.replace(/[^\0-\xff]/g, "?"))) : this.literal(each);
  }

  /** A word with the pieces of its form. */
  form(word, given, named) {
    const [left, more] = [[...given], new Map(named)];
    const made = [word, ...(this.rules.pieces.get(word) ?? []).map(piece => this.piece(word, piece, left, more))].filter(Boolean).join(" ");
    return left.length || more.size ? refuse() : made;
  }

  /** The text of a piece of a form, given the arguments, of which it takes some. */
  piece(word, piece, given, named) {
    switch (piece) {
      case "D": {
        const of = popped(named, "dtype") ?? given.find(each => this.rules.isType(each));
        without(given, of);
        return this.type(of);
      }
      case "S": case "S-": case "(axes)": return this.shape(piece, given, named);
      case "[axis]": {
        const of = popped(named, "axis") ?? given.shift();
        return !of || isNone(of) ? "" : literalOf(this.number(of));
      }
      case "[keep]": {
        const of = popped(named, "keepdims"), isWord = isKind(given[0], "Name") && given[0].id === "keep";
        return isWord && given.shift() || of && this.constant(of) === true ? "keep" : "";
      }
      case "C": case "F": {
        const of = popped(named, "order") ?? given.shift(), order = of ? of.id ?? of.value ?? "C" : "C";
        return ["C", "F"].includes(order) ? order : ["K", "A"].includes(order) ? "C" : refuse();
      }
    }
    const of = given.find(each => !this.rules.isType(each)) ?? itemAt(given, 0);
    given.splice(given.indexOf(of), 1);
    if (['"f"', '"field"'].includes(piece)) return `"${isKind(of, "Name") ? of.id : literalOf(this.constant(of))}"`;
    if (["L", "a", "b", "s"].includes(piece)) return this.literal(of);
    return piece === "Y[?]" ? this.operand(of) : ["transpose", "reshape", "broadcast"].includes(word) ? this.base(of) : this.name(of);
  }

  shape(piece, given, named) {
    const of = popped(named, piece === "(axes)" ? "axes" : "shape") ?? given.find(each => isKind(each, "Tuple", "List"));
    const taken = of ? [of] : piece === "S" && given.length === 2 ? given.slice(0, 1) : [...given];
    without(given, ...taken);
    const lengths = taken.length === 1 ? this.lengths(taken[0]) : taken.map(each => this.number(each));
    return taken.length || piece !== "(axes)" ? shaped(lengths.map(literalOf)) : "";
  }

  // What takes several lines, or an index that depends on the axes.

  /** Calls the function of a word with its arguments by their parameters. */
  several(word, given, named) {
    const [needed, more = []] = SEVERAL[word], parameters = [...needed, ...more], isSpread = word === "concatenate", found = {};
    if (!isSpread && given.length > parameters.length || [...named.keys()].some(name => !parameters.includes(name) || name === "more")) throw new Misfit();
    for (const [k, each] of given.entries()) if (!isSpread || !k) found[parameters[k]] = each;
    for (const [name, each] of named) if (found[name]) throw new Misfit(); else found[name] = each;
    if (needed.some(name => !found[name])) throw new Misfit();
    return this[`of_${word}`]({ ...found, more: isSpread ? given.slice(1) : [] });
  }

  /** A name that is made by several lines: the one that is assigned to, unless it is read. */
  made(lines) {
    const name = this.goal || this.free();
    for (const line of lines(name)) this.write(line);
    return name;
  }

  of_where({ condition, x, y }) {
    let mask = this.name(condition);
    if (this.info(mask).type !== "|b1") mask = this.bound(`ne ${mask} 0`);
    const sides = [x, y], texts = sides.map(each => this.operand(each)), arrays = sides.map((each, k) => this.isConstant(each) ? null : this.info(texts[k])), known = arrays.filter(Boolean);
    this.checkTypes("add", ...texts);
    const weak = known.length < 2 ? this.rules.kindOfItems(sides.filter(each => this.isConstant(each)).map(each => this.constant(each))) : "", joint = known.length ? this.rules.promoted(known.map(({ type }) => type)) : weak;
    const kind = joint === "|b1" && weak === "<i8" ? "<i8" : joint, shape = stretched([this.info(mask).shape, ...known.map(array => array.shape)]), isWhole = array => array.shape.join() === shape.join();
    if (!isWhole(this.info(mask))) mask = this.bound(`broadcast ${mask} ${shaped(shape)}`);
    const fits = arrays.map(array => array !== null && isWhole(array) && array.type === kind), [base, other] = fits[1] || !fits[0] ? [1, 0] : [0, 1];
    const part = arrays[other] && !isWhole(arrays[other]) ? this.bound(`broadcast ${this.bound(texts[other])} ${shaped(shape)}`) : texts[other];
    const begin = fits[base] ? `copy ${this.bound(texts[base])} C` : arrays[base] ? "" : `full ${kind} ${shaped(shape)} ${texts[base]}`;
    return this.made(name => {
      const at = base ? mask : this.free(), source = arrays[other] ? this.bound(part) : part;
      return [`${name} = ${begin || `zeros ${kind} ${shaped(shape)}`}`, ...begin ? [] : [`set ${name}[...] = ${texts[base]}`], ...base ? [] : [`${at} = not ${mask}`],
        `set ${name}[${at}] = ${source}${arrays[other] ? `[${at}]` : ""}`];
    });
  }

  of_concatenate({ arrays, more, axis: along_ }) {
    const isApart = isKind(arrays, "Name") && more.length && more.every(each => isKind(each, "Name")), list = isApart ? node("List", { elts: [arrays, ...more] }) : arrays, rest = isApart ? [] : more;
    if (!isKind(list, "List", "Tuple") || rest.length > 1) refuse("the arrays stand in a list");
    const axis = rest[0] ?? along_, names = list.elts.map(each => this.name(each)), infos = names.map(name => this.info(name)), [first] = [itemAt(infos, 0).shape];
    const given = axis ? Number(this.number(axis)) : 0, at = given < 0 ? given + first.length : given, others = shape => shape.filter((_, k) => k !== at).join();
    if (!infos.every(({ shape }) => shape.length === first.length && at >= 0 && at < first.length && others(shape) === others(first))) refuse("the arrays have other lengths along the other axes");
    const ends = [0];
    for (const { shape } of infos) ends.push(ends.at(-1) + shape[at]);
    const whole = first.with(at, ends.at(-1)), parts = names.map((_, k) => along(at, `${ends[k] || ""}:${ends[k + 1] === ends.at(-1) ? "" : ends[k + 1]}`)), kind = this.rules.promoted(infos.map(({ type }) => type));
    return this.made(name => [`${name} = zeros ${kind} ${shaped(whole)}`, ...names.map((each, k) => `set ${name}${parts[k]} = ${each}`)]);
  }

  of_stack({ arrays, axis }) {
    if (!isKind(arrays, "List", "Tuple") || arrays.elts.some(each => this.isConstant(each))) refuse("the arrays stand in a list");
    const texts = arrays.elts.map(each => this.operand(each)), infos = texts.map(text => this.info(text)), at = axis ? Number(this.number(axis)) : 0;
    if (new Set(infos.map(({ shape }) => shape.join())).size !== 1 || at < 0 || at > infos[0].shape.length) refuse("the arrays have different shapes");
    const shape = infos[0].shape.toSpliced(at, 0, texts.length), kind = this.rules.promoted(infos.map(({ type }) => type));
    return this.made(name => [`${name} = zeros ${kind} ${shaped(shape)}`, ...texts.map((each, k) => `set ${name}${along(at, String(k))} = ${each}`)]);
  }

  of_flip({ m, axis }) {
    const name = this.base(m), count = this.info(name).shape.length;
    if (!axis) return `${name}[${range(0, count).map(() => "::-1").join(",") || "..."}]`;
    const at = Number(this.number(axis));
    return name + along(at >= -count && at < count ? (at + count) % count : refuse(), "::-1");
  }

  of_squeeze({ a, axis }) {
    const name = this.base(a), { shape } = this.info(name), turned = at => shape.length ? ((Number(at) % shape.length) + shape.length) % shape.length : (() => { throw new Misfit(); })();
    const axes = axis ? this.lengths(axis).map(turned) : range(0, shape.length).filter(at => shape[at] === 1);
    if (axes.some(at => shape[at] !== 1)) refuse("an axis of that length is not taken away");
    return `${name}[${axes.length ? [...shape.map((_, at) => axes.includes(at) ? "0" : ":"), "..."].join(",") : "..."}]`;
  }

  of_expand_dims({ a, axis }) {
    const name = this.base(a), at = Number(this.number(axis)), count = this.info(name).shape.length + 1;
    if (at < -count || at >= count) refuse();
    return at === -1 ? `${name}[...,None]` : name + along((at + count) % count, "None");
  }

  permuted(name, axes) { return axes.join() === "1,0" ? `transpose ${name}` : `transpose ${name} ${shaped(axes)}`; }

  of_swapaxes({ a, axis1, axis2 }) {
    const name = this.base(a), axes = range(0, this.info(name).shape.length), one = itemAt(axes, Number(this.number(axis1))), other = itemAt(axes, Number(this.number(axis2)));
    return this.permuted(name, axes.map(axis => axis === one ? other : axis === other ? one : axis));
  }

  of_moveaxis({ a, source, destination }) {
    const name = this.base(a), axes = range(0, this.info(name).shape.length), at = itemAt(axes, Number(this.number(source))), to = itemAt(axes, Number(this.number(destination)));
    return this.permuted(name, axes.filter(axis => axis !== at).toSpliced(to, 0, at));
  }

  // Numbers that NumPy copies.

  /** Whether NumPy gives a number of its own: an array of numbers with an integer for each axis. */
  isScalar(each, text) {
    if (!isKind(each, "Subscript") || text.includes("...") || !this.hasNumbers(each)) return false;
    const array = this.info(text);
    if (array.shape.length || array.type.startsWith("T")) return false;
    if (array.type.startsWith("|S")) refuse("an item of NumPy's is a byte string of its own length: here it is a view, of the type of the array");
    return true;
  }

  /** Whether an index is of numbers only, or is the name of a field of one item. */
  hasNumbers(each) {
    if (isKind(each.slice, "Constant") && typeof each.slice.value === "string") return isKind(each.value, "Subscript") && this.hasNumbers(each.value);
    return (isKind(each.slice, "Tuple") ? each.slice.elts : [each.slice]).every(one => this.isNumber(one));
  }
}
