// What a line says, by the tables of docs/LANGUAGE.md: its colours, what may stand at a place, and what is said of a refusal.
import { Rules } from "./tried.mjs";
import { nearest, printable } from "./near.mjs";

const TYPES = ["|b1", "|i1", "<i2", "<i4", "<i8", "|u1", "<u2", "<u4", "<u8", "|S8", "T{<i:x:<h:y:}"];
const ONE_ITEM = /^\s*(\w+)\s*=\s*\w+\[[-+\d,\s]+\]\s*$/;
const PARTED = /(?=b'|[^\w+-]|$)/y; // behind a type of a record
const FIRST_WORDS = 10; // of those that are bound, in a hint
const TOKENS = /(#.*)|(b'(?:[^'\\]|\\.)*'?|"[^"]*"?)|([A-Za-z_]\w*)|([+-]?\d+)/g;

/** A line read as each form of a command, with the parts of the form that fits: `far` is the place up to which it reads as some form, and `wanted` what may stand there, each with
 *  the pieces of the forms from there on. Where `names` are given, only these are arrays. The rules are those of grammar.py. */
class Reading {
  constructor({ forms, rules, pattern, ends }, line, names) {
    Object.assign(this, { rules, pattern, ends, line, names, far: 0, wanted: new Map(), behind: [], parts: [] });
    this.isWhole = forms.some(form => this.form(form));
  }

  form(form) {
    let at = 0;
    this.parts = [];
    for (const [k, [piece, rule]] of form.entries()) {
      this.behind = form.slice(k).map(([each]) => each);
      const end = this.read(rule, at);
      if (end === null) return false;
      this.parts.push({ piece, text: this.line.slice(this.skip(at), end) });
      at = end;
    }
    this.behind = [];
    return this.skip(at) === this.line.length || this.want(at, this.ends.end) !== null;
  }

  /** Where a rule ends that begins at a place, or null. */
  read(rule, at) {
    const [kind, ...parts] = this.rules[rule];
    if (kind === "token") return this.token(parts, at);
    if (kind === "type") return this.type(at);
    if (kind === "any") { for (const each of parts) { const end = this.read(each, at); if (end !== null) return end; } return null; }
    if (kind === "many") { for (let end = at; end !== null; end = this.read(parts[0], at)) at = end; return at; }
    for (const each of parts) if ((at = this.read(each, at)) === null) return null;
    return at;
  }

  token([pattern, what, isGlued], at) {
    const begin = isGlued ? at : this.skip(at), form = this.pattern(pattern);
    form.lastIndex = begin;
    const found = form.exec(this.line)?.[0], isArray = found && this.ends.arrays.includes(what) && /^(?!(?:True|False)$)[A-Za-z_]\w*$/.test(found);
    if (found !== undefined && !(isArray && this.names && !this.names.has(found) && !this.ends.words.includes(found))) return begin + found.length;
    return this.want(at, what + (isGlued && this.line.startsWith("[", this.skip(at)) ? " at once behind the name" : ""));
  }

  /** A type: behind a blank, and up to the next one or to the brace that closes a record. */
  type(at) {
    const begin = this.skip(at);
    if (begin === at || begin === this.line.length) return this.want(at, this.ends.type);
    const rest = this.line.slice(begin), opening = /^[@=<>!^]*T\{/.exec(rest)?.[0];
    if (!opening) return begin + /^[^ \t]*/.exec(rest)[0].length;
    let [depth, isNamed, end] = [1, false, begin + opening.length];
    for (; depth; end++) {
      if (end === this.line.length) return this.want(end, "`}`");
      depth += isNamed ? 0 : { "{": 1, "}": -1 }[this.line[end]] ?? 0;
      isNamed = isNamed !== (this.line[end] === ":");
    }
    PARTED.lastIndex = end;
    return PARTED.test(this.line) ? end : this.want(end, "a blank");
  }

  want(at, what) {
    at = this.skip(at);
    if (what && at > this.far) [this.far, this.wanted] = [at, new Map()];
    if (what && at === this.far) this.wanted.set(what, [...(this.wanted.get(what) ?? []), this.behind]);
    return null;
  }

  skip(at) { return at + /^[ \t]*/.exec(this.line.slice(at))[0].length; }

  /** Where the line stops being a command, and what could come there. */
  stop({ phrase, isReserved }) {
    const { command } = this.ends, begin = this.skip(0), [, first, behind] = /^(\w*)\s*(.?)/.exec(this.line.slice(begin)), isFirst = this.far === begin;
    if (isFirst && isReserved(first)) return [begin, phrase(behind === "=" ? "reserved" : "before", first)];
    if (isFirst && first.length > 32) return [begin, phrase("long name")];
    if ([...this.wanted.keys()].join() === "`=`" && !["set", "upd"].includes(first) && /^[\w"']|^$/.test(behind)) return [begin, command];
    const wanted = [...this.wanted.keys()].filter(what => what !== "`[`" || this.wanted.size === 1);
    return [this.far, [wanted.slice(0, -1).join(", "), ...wanted.slice(-1)].filter(Boolean).join(" or ")];
  }
}

/** The words of the language, by its tables: the forms of its commands and their rules, what OP, UN and RED stand for, and its codes. */
export class Language {
  constructor({ forms, rules, ends, operations, comparisons, codes, examples, numpy }) {
    const patterns = new Map(), words = ends.words = [...new Set([...forms.flat().flatMap(([piece]) => operations[piece] ?? (/^[a-z]{2,}$/.test(piece) ? [piece] : [])), "True", "False", "None"])];
    const pattern = text => patterns.get(text) ?? patterns.set(text, new RegExp(text, "y")).get(text);
    Object.assign(this, { forms, rules, ends, operations, codes, examples, words, pattern, known: new WeakMap() });
    this.rulesOfNumPy = new Rules(numpy, { forms, operations, words, codes, comparisons });
  }

  /** The parts of a line that is a command: the pieces of its form, each with its text. */
  partsOf(line) { return new Reading(this, line).parts; }

  isReserved(word) { return this.words.includes(word); }

  /** What may stand at a place of a line, by what is typed of it so far. */
  offers(begin, names) {
    const stem = /[A-Za-z_]\w*$/.exec(begin)?.[0] ?? "", before = begin.slice(0, begin.length - stem.length), { far, wanted } = new Reading(this, before, names), { arrays, type, end } = this.ends;
    if (far !== before.length && before.slice(far).trim()) return { stem, words: [], told: "" };
    const wordsOf = (what, piece) => [...(arrays.includes(what) && /^[XYZ]/.test(piece) ? names : []), ...(what === type ? TYPES : this.operations[piece] ?? (/^([a-z]{2,}|[CF])$/.test(piece) ? [piece] : []))];
    const words = [...wanted].flatMap(([what, behind]) => behind.flatMap(([piece = ""]) => wordsOf(what, piece)));
    return { stem, words: [...new Set(words)].filter(word => word.startsWith(stem) && word !== stem), told: [...wanted.keys()].filter(what => what !== end || wanted.size > 1).join(", ") };
  }

  /** What is said of a refused line: the lines that are offered for it; where it stops being a command and what may stand there, or the
   *  numbers behind its code. `hints` tries lines, and `files` are those that a line can load. */
  hint(moment, hints, files) {
    if (!this.known.has(moment)) this.known.set(moment, this.hinted(moment, hints, files));
    return this.known.get(moment);
  }

  hinted({ line, typed = line, reply: { code }, before, arrays }, hints, files) {
    const names = [...before.names.keys()], told = { E01: () => [this.phrase("too long")], E02: () => [this.ofByte(typed)], E06: () => this.ofName(line, names), E34: () => [this.ofFile(line, files)] }[code]?.();
    if (told) return { offered: [], text: told.join("; ") };
    const said = arrays && hints ? hints.said(line, code, { names, arrays, files }) : { offered: [], told: [] };
    if (code !== "E03") return { offered: [], text: said.told[0] ?? this.codes[code]?.[1] ?? "" };
    const { at, text } = said.offered.length || said.isRefused ? { text: [] } : this.place(line, names);
    return { at, offered: said.offered, text: [...said.told, ...text].join("; ") };
  }

  /** Where a line stops being a command, what could come there, and the words that are near what stands there. */
  place(line, names) {
    const reading = new Reading(this, line, new Set(names)), isReserved = word => this.isReserved(word);
    if (!reading.wanted.size) return { text: [] };
    const [at, wanted] = reading.stop({ phrase: (...given) => this.phrase(...given), isReserved }), word = /^[a-z_]{4,}|^/.exec(line.slice(at))[0];
    const near = isReserved(word) ? [] : nearest(word, this.words, 2, 0.75);
    return { at, text: [`expected ${wanted}`, ...near.length ? [this.phrase("near", near.join(" or "))] : []] };
  }

  /** A text of the rules about some words. */
  phrase(key, ...words) { return this.rulesOfNumPy.SAID[key].replace(/\{(\d)\}/g, (_, k) => words[k]); }

  /** The letter of a line that is not allowed. */
  ofByte(line) {
    const letters = [...line], at = letters.findIndex(letter => letter !== "\t" && !(letter >= " " && letter <= "~"));
    return line.startsWith("\ufeff") ? this.phrase("mark") : this.phrase("letter", printable(letters[at] ?? ""), at + 1);
  }

  /** A name that is not bound, and the nearest one, or all. */
  ofName(line, names) {
    const word = line.replace(/^\s*\w+\s*=|"[^"]*"/g, "").match(/(?<![\w'"])[A-Za-z_]\w*/g)?.find(each => !this.isReserved(each) && !names.includes(each));
    if (word === undefined) return [this.codes.E06[1]];
    const [near] = nearest(word, names, 1, 0.7), bound = names.length ? this.phrase("names", names.slice(0, FIRST_WORDS).join(" ") + (names.length > FIRST_WORDS ? " .." : "")) : this.phrase("no name");
    return [this.phrase("unbound", word), near === undefined ? bound : this.phrase("near", near)];
  }

  /** A file that is not there, and the nearest one, or all. */
  ofFile(line, files) {
    const [near] = nearest(line.split('"')[1], [...files.keys()], 1, 0.7), known = [...files.keys()].slice(0, FIRST_WORDS).join(" ");
    return near === undefined ? known ? this.phrase("files", known) : this.phrase("no file") : this.phrase("near", near);
  }

  /** What differs from NumPy after a line that binds a name to one item. */
  oneItem({ line, after }) {
    const array = after.names.get(ONE_ITEM.exec(line)?.[1])?.array;
    return array && !array.shape.length && !array.type.startsWith("T") ? `a view of one item; in NumPy it is a copy (\`copy ${array.name} C\`)` : "";
  }

  /** The parts of a line, each with what it is: a comment, a text, a word of the language, a name or a number. */
  * parts(line) {
    let at = 0;
    const isComment = /^\s*#/.test(line);
    for (const found of isComment ? [{ 0: line, index: 0, 1: line }] : line.matchAll(TOKENS)) {
      if (found.index > at) yield [line.slice(at, found.index), ""];
      yield [found[0], found[1] ? "comment" : found[2] ? "text" : found[3] ? (this.isReserved(found[3]) ? "verb" : "bound") : "number"];
      at = found.index + found[0].length;
    }
    if (at < line.length) yield [line.slice(at), ""];
  }
}
