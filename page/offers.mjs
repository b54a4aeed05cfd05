// Lines of NumPy, and lines that are nearly right, as lines of the language: a line is brought into Python's form by the patterns of the
// rules, read as Python, and tried line by line as it is made. So what is offered is accepted.
import { Bytes, ELLIPSIS, NotPython, constantOf, expressionOf, isKind, nameOf, node, statementsOf, walk } from "./python.mjs";
import { Expressions, isSeveral } from "./expressions.mjs";
import { QUESTIONS, Stopped, TYPE_WORD, Unknown, flat, refuse } from "./tried.mjs";
import { range } from "./trace.mjs";

const NEST = String.raw`\((?:[^()]|\([^()]*\))*\)?|\[(?:[^\[\]]|\[[^\[\]]*\])*\]?`;
const APART = new RegExp(`(?:[^\\s,()\\[\\]"']|"[^"]*"?|'[^']*'?|${NEST}|[)\\]])+`, "g");
const NOT_COMMANDS = ["E01", "E02", "E03"];

/** The lines of statements. */
class Statements extends Expressions {
  assign(target, value) {
    if (isKind(target, "Name")) {
      this.goal = walk(value).some(each => isKind(each, "Name") && each.id === target.id) ? "" : target.id;
      let text = this.value(value);
      if (this.isScalar(value, text)) text = `copy ${this.bound(text)} C`;
      this.taken.add(target.id);
      if (text !== this.goal) this.write(`${target.id} = ${text}`);
      this.goal = "";
    } else if (isKind(target, "Tuple", "List")) this.assignSeveral([...target.elts], value);
    else if (isKind(target, "Attribute") && ["shape", "dtype", "strides"].includes(target.attr)) refuse(`a ${target.attr} is not assigned: \`reshape\` and \`cast\` make another array`);
    else this.assignItems(target, value);
  }

  /** Another target of a value that is assigned already: a number is a copy. */
  assignAgain(target, value, first) {
    const isNew = !this.reply.text.endsWith("view"), isPoint = isNew && isKind(target, "Name") && isKind(first, "Name") && !this.info(first.id).shape.length;
    if (isPoint && !this.isConstant(value)) this.write(`${target.id} = copy ${first.id} C`);
    else this.assign(target, this.isConstant(value) ? value : first);
  }

  assignItems(target, value) {
    if (isKind(value, "Constant") && typeof value.value === "string" && this.info(this.target(target)).type.startsWith("|S")) value = constantOf(new Bytes(value.value.replace(/[^\0-\xff]/g, "?")));
    const text = this.assigned(target, value);
    this.write(`set ${this.target(target)} = ${text}`);
  }

  assigned(target, value) {
    if (!isKind(value, "List", "Tuple") || !flat(node("List", { elts: value.elts })).every(each => this.isConstant(each))) return this.operand(value);
    const { type } = this.info(this.target(target));
    return type.startsWith("T") && isKind(value, "Tuple") ? this.literal(value) : this.bound(this.ofList(value, type));
  }

  /** Several targets at once: all values are found before the first is assigned. */
  assignSeveral(targets, value) {
    const values = this.valuesOf(value);
    if (targets.length !== values.length || targets.some(each => isKind(each, "Starred"))) refuse("as many names as values");
    for (const [k, target] of targets.entries()) {
      for (let later = k + 1; later < values.length; later++) values[later] = this.kept(values[later], target);
      this.assign(target, values[k]);
    }
  }

  valuesOf(value) {
    if (isKind(value, "Tuple", "List")) return [...value.elts];
    const name = this.name(value), [length] = this.info(name).shape;
    if (length === undefined) throw new NotPython();
    return range(0, length).map(k => node("Subscript", { value: nameOf(name), slice: constantOf(BigInt(k)) }));
  }

  /** A value that is still the same when a target was assigned. */
  kept(value, target) {
    const isRead = isKind(target, "Name") && walk(value).some(each => isKind(each, "Name") && each.id === target.id);
    if (isRead && !isKind(value, "Subscript")) return nameOf(this.keptName(value));
    if (isKind(value, "Subscript")) {
      const text = this.value(value);
      if (this.isScalar(value, text)) return nameOf(this.bound(`copy ${this.bound(text)} C`));
      return isRead ? nameOf(this.bound(text)) : value;
    }
    return this.isConstant(value) || isKind(value, "Name") ? value : nameOf(this.name(value));
  }

  keptName(value) {
    if (!isKind(value, "Name")) return this.name(value);
    const name = this.free();
    this.write(`${name} = ${value.id}`);
    return name;
  }

  /** The target of a write: a name and an index. */
  target(each) {
    const text = isKind(each, "Subscript") ? this.subscript(each, true) : isKind(each, "Attribute") ? this.value(each) : isKind(each, "Name") ? each.id : refuse();
    return text.endsWith("]") ? text : `${this.bound(text)}[...]`;
  }

  statement(each) {
    if (each.kind === "Expr") { this.expression(each.value); return; }
    this.fold(each);
    switch (each.kind) {
      case "Assign":
        this.assign(each.targets.at(-1), each.value);
        for (const target of each.targets.slice(0, -1)) this.assignAgain(target, each.value, each.targets.at(-1));
        return;
      case "AugAssign": this.update(each); return;
      case "Delete": for (const one of each.targets) this.write(`del ${isKind(one, "Name") ? one.id : refuse("an item is not unbound, only a name")}`); return;
    }
    if (each.kind === "AnnAssign" && each.value) this.assign(each.target, each.value);
    else refuse(`there is no ${each.kind.toLowerCase()}: each line is one command`);
  }

  /** Puts the numbers of arrays into the values of a statement, and into the indexes of its targets. */
  fold(each) {
    if (each.value) each.value = this.folded(each.value);
    for (const target of each.targets ?? [each.target]) if (isKind(target, "Subscript")) target.slice = this.folded(target.slice);
  }

  /** An assignment such as `a += 1`. */
  update({ target: to, op, value }) {
    if (op === "Pow" && isKind(value, "Constant") && value.value === 2n) {
      const target = this.target(to);
      this.write(`upd ${target} mul ${target.replace(/\[\.\.\.\]$/, "")}`);
      return;
    }
    const verb = this.rules.OPERATORS[op] ?? refuse(op === "Div" ? "there are no floats: `//` is fdiv" : "there is no power and no `@`"), text = this.operand(value);
    this.write(`upd ${this.target(to)} ${verb} ${text}`);
  }

  /** A question about an array, a write by a function, or a print. */
  expression(each) {
    const { func } = isKind(each, "Call") ? each : {}, isMethod = isKind(func, "Attribute"), word = isMethod ? func.attr : func?.id ?? "", given = isKind(each, "Call") && !each.keywords.length ? [...each.args] : [];
    const asked = walk(each).find(one => isKind(one, "Attribute") && QUESTIONS.includes(one.attr)), known = this.rules.word(word);
    if (asked && (each === asked || isKind(each, "Attribute", "Subscript") || word === "print")) this.write(`info ${this.name(asked.value)}`);
    else if (word === "upd" && given.length === 3) {
      const text = this.operand(given[2]);
      this.write(`upd ${this.target(given[0])} ${this.constant(given[1])} ${text}`);
    } else if (word === "fill" && isMethod && given.length === 1) this.assignItems(node("Subscript", { value: func.value, slice: constantOf(ELLIPSIS) }), given[0]);
    else if (["len", "info", "type", "format"].includes(word) && given.length) for (const one of given) this.write(`${word === "format" ? "format" : "info"} ${this.name(one)}`);
    else if (["print", "str", "repr", "display"].includes(word) && given.length) this.printed(given);
    else if (word === "tolist" && isMethod) this.printed([func.value]);
    else if (["shares", "save", "names"].includes(known)) this.write(this.form(known, [...given.filter(one => !isKind(one, "Constant")), ...given.filter(one => isKind(one, "Constant"))], new Map())); // numpy.save has the file first
    else this.printed([each]);
  }

  printed(nodes) {
    const folded = nodes.map(each => this.folded(each));
    if (folded.some(each => isKind(each, "Constant", "JoinedStr"))) refuse("`print` takes the names of arrays");
    for (const line of folded.map(each => `print ${this.name(each)}`)) this.write(line);
  }
}

/** Lines in Python's form. */
class Spelling {
  constructor(rules) { Object.assign(this, { rules, lines: rules.LINES.map(rule => ({ ...rule, pattern: new RegExp(`^(?:${rule.when})$`) })) }); }

  /** A line in Python's form. `Unknown` with the reason if there is none. */
  python(typed) {
    let line = typed.trim();
    for (const { pattern, as, say } of this.lines) {
      const found = pattern.exec(line), text = found && (as || say).replace(/\$(\d)/g, (_, k) => k === "0" ? "" : found[k] || "");
      if (found && say !== undefined) refuse(text);
      if (found) line = text;
    }
    const update = /^upd\s+([A-Za-z_]\w*(?:\.[A-Za-z_]\w*)*\s*(?:\[.*?\])*)\s*(\w+)\s+(.+)$/.exec(line), asked = /^(print|info|format|del|shares)\s+([^\s=(].*)$/.exec(line);
    if (update) return `upd(${update[1]}, '${this.rules.word(update[2])}', ${update[3]})`;
    const parts = asked && (asked[2].match(APART) ?? []).join(", "), saved = /^save\s+(\S+)\s+(\S+)$/.exec(line), assigned = /^([A-Za-z_]\w*)\s*=\s*([^=].*)$/.exec(line);
    if (asked) return asked[1] === "del" ? `del ${parts}` : `${asked[1]}(${parts})`;
    if (saved) return `save(${saved[1]}, ${this.quoted(saved[2])})`;
    return assigned ? `${assigned[1]} = ${this.call(assigned[2])}` : this.call(line);
  }

  /** A file's name, quoted for Python. */
  quoted(text) { return JSON.stringify(text.replace(/^["']+|["']+$/g, "")); }

  isPython(text) { try { return Boolean(expressionOf(text)); } catch { return false; } }

  /** `zeros <i4 (2,3)` as `bench.zeros('<i4', (2,3))`; other texts as they are. */
  call(text) {
    const { rules } = this, [, verb, behind = ""] = /^([^ ]*)(?: ([^]*))?$/.exec(text), word = rules.word(verb), args = behind.match(APART) ?? [];
    const isKnown = rules.verbs.has(word) || word === "ones" || rules.calls.has(word) || isSeveral(word) || /^[A-Za-z_]\w* [A-Za-z_]\w*$/.test(text);
    const isWritten = this.isPython(text) && !/^[<>|=?]\S/.test(behind.trimStart()) && !(["zeros", "ones", "full"].includes(word) && behind.startsWith("("));
    if (!isKnown || !args.length || isWritten) return text;
    const isType = arg => /^([<>|=?]|T\{)/.test(arg) || TYPE_WORD.test(arg) || /^U\d+$/.test(arg);
    const given = args.map(arg => arg.replace(/^\((-?\d+)\)$/, "($1,)")).map(arg => word === "load" ? this.quoted(arg) : isType(arg) ? JSON.stringify(arg) : arg);
    return `bench.${word}(${given.join(", ")})`;
  }
}

/** What a line is in the language: the lines with its meaning, or none; why there are none, or what is to be known beside them; and the
 *  refusal of the last line, if it is refused. `trial` has arrays like those that the line names, and is changed; `names` are all that are taken. */
export function offerOf(line, trial, names, rules) {
  const made = new Statements(trial, [...names, ...line.match(/[A-Za-z_]\w*/g) ?? []], rules), spelling = rules.spelling ??= new Spelling(rules);
  try {
    const bare = line.replace(/[; \t]+$/, "");
    for (const part of /['"]/.test(line) ? [line] : bare.split(";")) for (const each of statementsOf(spelling.python(part))) made.statement(each);
  } catch (fault) {
    if (fault instanceof Stopped) return NOT_COMMANDS.includes(fault.reply.code) ? { lines: [], reasons: made.reasons } : { lines: made.lines, reasons: made.reasons, refusal: fault.reply };
    if (fault instanceof Unknown) return { lines: [], reasons: [...made.reasons, fault.message].filter(Boolean) };
    return { lines: [], reasons: [] };
  }
  return { lines: made.lines.join("\n") === line.trim() ? [] : made.lines, reasons: made.reasons };
}
