// ---- the page
import { range } from "./trace.mjs";
import { cut } from "./picture.mjs";
import { STYLE, escape } from "./svg.mjs";
import { Language } from "./language.mjs";
import { Script } from "./script.mjs";

const MOST_LINK = 8192, MOST_SCRIPT = 1 << 20, MOST_LINES = 200, MOST_ITEMS = 100_000, MOST_TYPED = 1 << 16, MOST_FILES = 32 << 20; // bytes of a link, and of the script in it; lines and items of a script of a link that runs at once; letters that are put in as if typed; bytes of files that go into a page
const WAIT = 400, HEIGHT = 20, SPARE = 20; // milliseconds after which a line is said to run; pixels of a line of the script; lines that are written above and below those in sight
const at = id => document.getElementById(id), json = id => JSON.parse(at(id).textContent || "null") ?? {};
const ui = Object.fromEntries([..."script shown examples open chosen keep page link numpy svg note offers files busy stop back slider on line reply hint take words pictures lit all cells more editor".split(" ")].map(id => [id, at(id)]));
const language = new Language(json("tables")), given = json("given"), files = new Map(), source = `<!DOCTYPE html>\n${document.documentElement.outerHTML}\n`; // the page as it came
const bytesOf64 = text => Uint8Array.fromBase64?.(text) ?? Uint8Array.from(atob(text), letter => letter.charCodeAt(0));

/** The bytes of a packed text. It throws if the text is cut, or if there are more bytes than `most`. */
async function unpacked(text, form, most = Infinity) {
  const parts = [], reader = new Blob([bytesOf64(text)]).stream().pipeThrough(new DecompressionStream(form)).getReader();
  let size = 0;
  for (let part = await reader.read(); !part.done; part = await reader.read()) {
    size += part.value.length;
    if (size > most) throw new RangeError("too long");
    parts.push(part.value);
  }
  return new Uint8Array(await new Blob(parts).arrayBuffer());
}
const made = (tag, text, more = {}) => Object.assign(document.createElement(tag), { textContent: text, ...more });
const sheet = new CSSStyleSheet();
document.adoptedStyleSheets = [sheet];
let colours = 0;

/** Writes the rules of pictures, with those of so many colours at least. */
function dress(count) {
  if (count <= colours) return;
  colours = 2 * count;
  sheet.replaceSync(STYLE(":root", range(0, colours)));
}
const linesOf = text => text.replace(/\n$/, "").split("\n");

/** The script in its worker. It gets the lines that have changed, and is asked for what is shown. A line that runs too long ends with the worker. */
class Run {
  constructor(module, undo) {
    Object.assign(this, { module, undo, calls: new Map(), number: 0, lines: [], count: 0, version: 0, fault: "", saved: [], isNew: false });
    this.code = new Blob([document.querySelector("script[type=module]").textContent.split("// ---- the page")[0].replaceAll("import.meta.url", "''"), "\nserve();"], { type: "text/javascript" });
    this.open();
  }

  /** Starts a worker; where a browser has none, the script runs in the page itself. */
  open() {
    const begin = [this.module, json("tables"), this.undo];
    try {
      this.worker = new Worker(URL.createObjectURL(this.code));
      this.worker.onmessage = ({ data }) => this.heard(data);
      this.worker.onerror = () => this.lost(begin);
      this.ask("open", ...begin);
    } catch { this.lost(begin); }
    if (files.size) this.ask("setFiles", [...files]);
    Object.assign(this, { lines: [], count: 0, saved: [], fault: "", at: 0, since: performance.now() });
  }

  /** There is no worker: what was asked is answered in the page. */
  lost(begin) {
    this.worker = null;
    this.inside = new Script(...begin, line => this.heard(line));
    for (const [, { asked, done }] of this.calls) if (asked[0] !== "open") Promise.resolve(this.inside[asked[0]](...asked.slice(1))).then(done);
    this.calls.clear();
  }

  heard(data) {
    if (typeof data === "number") { Object.assign(this, { at: data, count: Math.max(this.count, data), since: performance.now() }); return; }
    const [id, result, fault] = data, { done } = this.calls.get(id) ?? {};
    this.calls.delete(id);
    if (fault) this.fault = fault;
    done?.(result);
  }

  /** The result of a method of `Script`; null where the worker ended before. */
  ask(...asked) {
    if (this.inside) return Promise.resolve(this.inside[asked[0]](...asked.slice(1)));
    this.number += 1;
    this.worker.postMessage([this.number, ...asked]);
    return new Promise(done => this.calls.set(this.number, { asked, done }));
  }

  /** Ends the worker in the middle of a line, and starts another. */
  stop() {
    this.worker.terminate();
    for (const { done } of this.calls.values()) done(null);
    this.calls.clear();
    this.open();
  }

  /** Runs a script up to `hold`, and lets the line that is wanted be seen before others run: true when it has run, false if another one took its place. */
  async run(lines, hold, wanted) {
    const had = this.lines;
    let same = 0;
    while (same < Math.min(lines.length, had.length) && lines[same] === had[same]) same++;
    const now = performance.now();
    if (this.isRunning && same <= this.at && now - this.since > WAIT && this.worker) { this.stop(); same = 0; }
    if (this.isNew) this.ask("setFiles", [...files]);
    const count = this.isNew ? 0 : Math.min(same, this.count);
    Object.assign(this, { lines, isNew: false, isRunning: true, begun: now, since: now, at: count, count, version: this.version + 1 });
    const ran = await this.ask("run", same, lines.slice(same), hold, wanted);
    if (!ran || this.lines !== lines) return false;
    Object.assign(this, ran, { isRunning: false, version: this.version + 1 });
    return true;
  }
}

let isWriting = false, hold = null, run, current = 0, shown = null, isAsked = 0, generation = 0, cursor = null;
let awaited; // the text of the line for whose answer a Tab waits

// ---- the script

/** The line that the caret is in. */
const caretLine = () => { const { value, selectionStart } = ui.script; let line = 0; for (let k = value.indexOf("\n"); k >= 0 && k < selectionStart; k = value.indexOf("\n", k + 1)) line++; return line; };

/** Moves the caret to the end of a line. */
function moveTo(line) {
  const lines = ui.script.value.split("\n"), begin = lines.slice(0, line).reduce((sum, text) => sum + text.length + 1, 0);
  ui.script.setSelectionRange(begin + (lines[line]?.length ?? 0), begin + (lines[line]?.length ?? 0));
}

function coloured(line, row) {
  const html = [];
  let place = 0;
  for (const [text, look] of language.parts(line)) {
    const hue = look === "bound" && row?.hues[text] !== undefined ? ` h${row.hues[text]}` : "", isStop = row?.at !== undefined && place <= row.at && row.at < place + text.length;
    html.push(look || isStop ? `<span class="${look}${hue}${isStop ? " stop" : ""}">${escape(text)}</span>` : escape(text));
    place += text.length;
  }
  return row?.told ? `${html.join("")}<span class="r">${escape(row.told)}</span>` : html.join("");
}

/** The lines in sight, as they are typed, and what was said of them when they were last asked for. */
const view = { lines: [], first: 0, rows: [], of: -1, nodes: new Map() };

/** Writes the lines that are in sight in colours, each with its reply. One is written again only if its text, its reply or its colours have changed. */
function paint() {
  const { lines } = view, first = Math.max(0, Math.floor(ui.editor.scrollTop / HEIGHT) - SPARE), last = Math.min(lines.length, Math.ceil((ui.editor.scrollTop + ui.editor.clientHeight) / HEIGHT) + SPARE);
  for (const [k, row] of view.nodes) if (k < first || k >= last) { row.remove(); view.nodes.delete(k); }
  for (let k = first; k < last; k++) {
    const known = view.rows[k - view.first], told = known?.line === lines[k] ? known : undefined, look = `l${told && !told.accepted ? " no" : ""}${k === current ? " here" : ""}`;
    let row = view.nodes.get(k);
    if (!row) {
      view.nodes.set(k, row = made("div", ""));
      row.style.top = `${k * HEIGHT}px`;
      row.dataset.line = k + 1;
      ui.shown.insertBefore(row, view.nodes.get(k + 1) ?? null);
    }
    if (row.text !== lines[k] || row.told !== told?.key) [row.text, row.told, row.innerHTML] = [lines[k], told?.key, coloured(lines[k], told) || "\u200b"];
    if (row.className !== look) row.className = look;
  }
  if (run && (view.of !== run.version || first < view.first || view.first + view.rows.length < Math.min(last, run.count))) askRows(first, last);
}

/** Asks for the replies to the lines in sight, and writes them. */
async function askRows(first, last) {
  const { version, lines } = run;
  if (view.asked === `${version} ${first} ${last}`) return;
  view.asked = `${version} ${first} ${last}`;
  const told = await run.ask("rows", first, last);
  if (!told || lines !== run.lines) return;
  dress(told.colours);
  Object.assign(view, { first, of: version, rows: told.rows.map((row, k) => ({ ...row, line: lines[first + k], key: JSON.stringify(row) })) });
  paint();
}

/** Takes note of the script as it is now typed: its lines, and the room that they take. */
function measure() {
  view.lines = ui.script.value.split("\n");
  const longest = view.lines.reduce((most, line) => Math.max(most, line.length), 0);
  ui.shown.style.height = `${view.lines.length * HEIGHT}px`;
  ui.script.style.minWidth = `calc(${longest}ch + 6rem)`;
}

/** Brings a line into sight. */
function reveal(line) {
  const { scrollTop, clientHeight } = ui.editor, top = line * HEIGHT;
  if (top < scrollTop || top + 2 * HEIGHT > scrollTop + clientHeight) ui.editor.scrollTop = top < scrollTop ? top : top + 2 * HEIGHT - clientHeight;
}

function offer() {
  const { value, selectionStart } = ui.script, begin = value.slice(value.lastIndexOf("\n", selectionStart - 1) + 1, selectionStart), names = new Set(shown?.names);
  const { stem, words, told } = /^\s*#/.test(begin) ? { words: [], told: "" } : language.offers(begin, names);
  ui.offers.replaceChildren(...words.slice(0, 12).map(word => made("button", word, { type: "button", onclick: () => complete(stem, word) })), told && begin.trim() ? `Next: ${told}` : "");
  return { stem, words };
}

function complete(stem, word) {
  ui.script.focus();
  document.execCommand("insertText", false, word.slice(stem.length) + " ");
}

/** Whether the caret is in a line for which others are offered. */
const isOffered = () => Boolean(shown?.offered.length) && caretLine() === shown.line && view.lines[shown.line] === shown.text;

/** The line of the caret, while it has no answer yet; undefined where it has one, or gets none. */
function unanswered() {
  const line = caretLine(), text = ui.script.value.split("\n")[line];
  return hold || !/^\s*[^\s#]/.test(text) || shown?.line === line && shown.text === text ? undefined : text;
}

/** What Tab does: it takes the lines that are offered, or completes a word. A line that has no answer yet is waited for. */
function tab(event) {
  const { stem, words } = offer();
  awaited = event && unanswered();
  if (awaited !== undefined) event.preventDefault();
  else if (isOffered() || stem && words.length) {
    event?.preventDefault();
    if (isOffered()) takeOffer();
    else complete(stem, words[0]);
  }
}

/** Puts the lines that are offered in the place of the line. */
function takeOffer() {
  const { line, text, offered } = shown, begin = view.lines.slice(0, line).reduce((sum, each) => sum + each.length + 1, 0);
  ui.script.focus();
  ui.script.setSelectionRange(begin, begin + text.length);
  document.execCommand("insertText", false, offered.join("\n"));
}

// ---- a line and its picture

/** Shows a line, as far as it has run. */
async function show(line) {
  const mine = ++isAsked, { lines } = run, most = run.isRunning ? lines.length : run.count;
  current = Math.max(0, Math.min(line, hold ? Math.max(most, hold.at + 1) - 1 : most - 1));
  paint();
  offer();
  ui.slider.max = Math.max(0, run.count - 1);
  ui.slider.value = current;
  if (hold && current >= hold.at) { tellHeld(); return; }
  const found = await run.ask("view", current, Math.max(300, ui.pictures.clientWidth - 8), ui.all.checked, ui.cells.open);
  if (!found || mine !== isAsked || lines !== run.lines) return;
  const isSame = shown?.pictures === found.pictures;
  shown = found;
  dress(found.colours);
  paint();
  offer();
  ui.slider.setAttribute("aria-valuetext", `Line ${found.number}: ${found.text}`);
  ui.line.textContent = `Line ${found.number}: ${cut(found.text, 300)}`;
  ui.reply.textContent = found.reply.text;
  ui.reply.className = found.reply.accepted ? "" : "no";
  tellHint(found);
  ui.words.textContent = run.fault || found.words;
  draw(isSame);
  if (awaited === found.text && caretLine() === found.line) tab();
}

function tellHint({ hint, offered }) {
  ui.hint.replaceChildren(hint && hint[0].toUpperCase() + hint.slice(1));
  ui.take.hidden = !offered.length;
  ui.take.replaceChildren(made("pre", offered.join("\n")), made("button", offered.length > 1 ? "Write these lines" : "Write this line", { type: "button", onclick: takeOffer }), " or press Tab in the line.");
}

function draw(isSame) {
  if (!isSame) {
    cursor = null;
    ui.lit.textContent = "";
    ui.pictures.innerHTML = shown.pictures;
  }
  ui.more.hidden = !ui.all.checked && !shown.isFolded;
  if (ui.cells.open) tellCells();
  document.body.dataset.drawn = shown.number;
}

/** The cells of the line's buffers in words, for a screen reader. */
function tellCells() {
  const table = made("table", ""), head = table.createTHead().insertRow(), body = table.createTBody();
  for (const text of ["Buffer", "Byte", "Value", "Before", "Comes from", "Names"]) head.append(made("th", text, { scope: "col" }));
  for (const { caption, rows } of shown.cells) {
    for (const texts of rows) body.insertRow().append(...texts.map(text => made("td", String(text))));
    table.caption ??= made("caption", caption);
  }
  ui.cells.lastElementChild.replaceChildren(table);
}

/** Lights up a byte of a buffer wherever it is drawn, and says what it is for each name. */
async function light(number, byte) {
  for (const lit of ui.pictures.querySelectorAll(".lit")) lit.classList.remove("lit");
  if (number === undefined) return;
  cursor = { number, byte };
  for (const figure_ of ui.pictures.querySelectorAll(`figure[data-buffer="${number}"]`)) {
    for (const rect of figure_.querySelectorAll("[data-at]")) if (+rect.dataset.at <= byte && byte < +rect.dataset.at + +rect.dataset.size) rect.classList.add("lit");
  }
  const text = await run.ask("light", shown.line, number, byte);
  if (cursor?.number === number && cursor.byte === byte) ui.lit.textContent = text ?? "";
}

function lightNext(step) {
  const places = [...ui.pictures.querySelectorAll(".now [data-at]:not(.pad)")].map(rect => ({ number: +rect.closest("figure").dataset.buffer, byte: +rect.dataset.at }));
  const here = places.findIndex(({ number, byte }) => number === cursor?.number && byte === cursor?.byte), next = places[Math.max(0, Math.min(places.length - 1, here + step))];
  if (!next) return;
  light(next.number, next.byte);
  ui.pictures.querySelector(".now .lit")?.scrollIntoView({ block: "nearest", inline: "nearest" });
}

// ---- files, links

function listFiles() {
  const links = run.saved.map(name => made("button", `Download ${name}`, { type: "button", className: "saved", onclick: async () => save(name, await run.ask("file", name), "application/octet-stream") }));
  const given_ = [...files].map(([name, bytes]) => made("button", `${name}, ${bytes.length} bytes ✕`, { type: "button", title: `Take ${name} away`, onclick: () => { files.delete(name); start(true); } }));
  ui.files.replaceChildren(...(links.length + given_.length ? ["Files: ", ...given_, ...links] : []));
}

/** The name of a file in the language: 1 to 64 letters, digits, `.`, `_` and `-`, and no `.` in front. */
function speltName(name) {
  const spelt = name.normalize("NFKD").replace(/[^\w.-]+/g, "_").replace(/^\./, "_");
  const end = /\.\w{1,8}$/.exec(spelt)?.[0] ?? "";
  return spelt.length <= 64 ? spelt || "_" : spelt.slice(0, 64 - end.length) + end;
}

async function take(list) {
  for (const file of list) {
    if (file.name.endsWith(".bench")) { replace(await file.text()); continue; }
    const name = speltName(file.name);
    files.set(name, new Uint8Array(await file.arrayBuffer()));
    note(`load "${name}" reads it`);
  }
  start(true);
}

/** Says something for some seconds, with a button for longer. */
function note(text, ...buttons) { noteFor(buttons.length ? 60 : 6, text, ...buttons); }

function noteFor(seconds, text, ...buttons) {
  const said = made("span", text);
  ui.note.replaceChildren(said, ...buttons);
  delete ui.note.dataset.of;
  setTimeout(() => { if (said.parentNode) ui.note.replaceChildren(); }, 1000 * seconds);
}

/** Copies a text, and says so until the script changes. */
async function copy(text, told, ...buttons) {
  try { await navigator.clipboard.writeText(text); } catch { prompt("Copy:", text); return; }
  note(told, ...buttons);
  ui.note.dataset.of = "script";
}

async function linkOf(text) {
  const packed = new Uint8Array(await new Response(new Blob([text]).stream().pipeThrough(new CompressionStream("deflate-raw"))).arrayBuffer());
  const letters = letters64(packed).replaceAll("+", "-").replaceAll("/", "_").replaceAll("=", "");
  return `${location.href.split("#")[0]}#script=${letters}&line=${current + 1}`;
}

const letters64 = bytes => btoa(Array.from(bytes, byte => String.fromCharCode(byte)).join(""));

/** The page with the script and its files in it, as `bench-tool draw` makes it. */
function pageOf(script) {
  const held = Object.fromEntries([...files].map(([name, bytes]) => [name, letters64(bytes)])), title = given.title ?? "script.bench";
  const text = JSON.stringify({ title, script, files: held, undo: given.undo ?? 16, line: current + 1 }).replaceAll("<", "\\u003c");
  return source.replace(/(<script type="application\/json" id="given">)[^<]*/, (_, begin) => begin + text);
}

function savePage() {
  if ([...files.values()].reduce((sum, { length }) => sum + length, 0) > MOST_FILES) { note("The files are too large for a page."); return; }
  save(`${(given.title ?? "script").replace(/\.bench$/, "")}.html`, pageOf(ui.script.value), "text/html");
}

/** The script and the line of a link, and what is wrong with it. */
async function linked() {
  const [, packed] = /[#&]script=([\w-]+)/.exec(location.hash) ?? [], [, line] = /(?:#|&line=)(\d+)$/.exec(location.hash) ?? [];
  if (!packed) return { line: Number(line) || 0 };
  try {
    const bytes = await unpacked(packed.replaceAll("-", "+").replaceAll("_", "/"), "deflate-raw", MOST_SCRIPT);
    return { text: new TextDecoder().decode(bytes), line: Number(line) || 0 };
  } catch (fault) {
    return { line: 0, fault: fault instanceof RangeError ? "The script of the link is longer than a megabyte. It was not opened." : "The link is cut or damaged: its script cannot be read." };
  }
}

/** Whether a script of a link might run long: it has many lines, or numbers that make large arrays. */
function mightRunLong(text) {
  const lists = text.match(/[(][\d, ]*[)]|\d+/g) ?? [];
  return linesOf(text).length > MOST_LINES || lists.some(list => list.match(/\d+/g)?.reduce((items, length) => items * Number(length), 1) > MOST_ITEMS);
}

// ---- what happens

/** Runs the script, from nothing where files have changed, and shows the line of the caret, or another. */
async function start(isNew = false, line = caretLine()) {
  const mine = ++generation, lines = linesOf(ui.script.value);
  run.isNew ||= isNew;
  if (hold && lines.slice(0, hold.at + 1).join("\n") !== hold.text) hold = null;
  keepScript();
  measure();
  const whole = run.run(lines, hold?.at, line);
  show(line);
  if (!await whole || mine !== generation) return;
  ui.busy.hidden = true;
  await show(line);
  if (mine !== generation) return;
  listFiles();
  document.body.dataset.ran = mine;
}

/** Says which line is running, if it takes long, and shows the line that was asked for as soon as it has run. */
function watch() {
  const isLong = run?.isRunning && performance.now() - run.begun > WAIT;
  ui.busy.hidden = !isLong;
  if (!isLong) return;
  ui.busy.firstChild.data = `Line ${run.at + 1} of ${run.lines.length} is running. `;
  ui.stop.hidden = !run.worker;
  if (shown && view.lines[shown.line] !== shown.text) blank();
  if (performance.now() - run.since < WAIT) run.version += 1;
  paint();
}

/** Takes away what is shown of a line that is no longer there. */
function blank() {
  for (const part of [ui.line, ui.reply, ui.hint, ui.words, ui.pictures, ui.lit]) part.textContent = "";
  ui.take.hidden = true;
  shown = null;
}

/** Stops the script in the line that is running. The lines before it run again, and it waits. */
function stop() {
  const line = run.at;
  hold = { at: line, text: run.lines.slice(0, line + 1).join("\n"), why: `Line ${line + 1} was stopped. The lines before it have run again. ` };
  run.stop();
  start(false, line);
}

/** Says why the script waits, with a button that goes on. */
function tellHeld() {
  blank();
  ui.line.textContent = `Line ${current + 1}: ${cut(view.lines[current] ?? "", 300)}`;
  ui.words.replaceChildren(hold.why, made("button", "Run it", { type: "button", onclick: () => { hold = null; start(); } }));
}

// The script is kept in the browser, by the address of the page, with the script that the page came with.
const PLACE = `bench ${location.pathname}`, origin = given.script ?? "";
function kept() {
  try {
    const { from, text } = JSON.parse(localStorage.getItem(PLACE)) ?? {};
    return from === origin ? text : undefined;
  } catch { return undefined; }
}
function keepScript() {
  try { localStorage.setItem(PLACE, JSON.stringify({ from: origin, text: ui.script.value })); } catch { /* no storage, or none left: the script is kept by "Save script" alone */ }
}

/** Puts a script in the place of the one that is there. Ctrl-Z and a button bring that one back. */
function replace(text) {
  const before = ui.script.value;
  ui.script.focus({ preventScroll: true });
  ui.script.select();
  isWriting = true;
  if (text.length > MOST_TYPED || !document.execCommand("insertText", false, text)) ui.script.value = text;
  isWriting = false;
  moveTo(linesOf(text).length - 1);
  if (!before.trim() || before === text) return;
  note("", made("button", "Bring back the script from before", { type: "button", onclick: () => { replace(before); start(); } }));
}

function write(text) {
  ui.script.value = text;
  moveTo(linesOf(text).length - 1);
}

const save = (name, text, type) => made("a", "", { download: name, href: URL.createObjectURL(new Blob([text], { type })) }).click();
const went = line => { if (line !== current && line < Math.max(run.count, hold ? hold.at + 1 : 0)) show(line); };
let planned = 0; // a paste may come as many events, and is one run
ui.script.addEventListener("input", () => { awaited = undefined; if (ui.note.dataset.of) ui.note.replaceChildren(); clearTimeout(planned); if (!isWriting) planned = setTimeout(() => start()); });
ui.keep.addEventListener("click", () => save("script.bench", ui.script.value, "text/plain"));
document.addEventListener("selectionchange", () => { if (document.activeElement === ui.script && run) { went(caretLine()); offer(); } });
ui.script.addEventListener("keydown", event => {
  if (event.key === "Escape") ui.script.dataset.leaves = "yes";
  else if (event.key !== "Tab") delete ui.script.dataset.leaves;
  if (event.key !== "Tab" || event.shiftKey || ui.script.dataset.leaves) return;
  tab(event);
});
const goTo = line => { if (line >= 0 && line < run.count) { moveTo(line); reveal(line); show(line); } };
ui.slider.addEventListener("input", () => goTo(+ui.slider.value));
ui.back.addEventListener("click", () => goTo(current - 1));
ui.on.addEventListener("click", () => goTo(current + 1));
addEventListener("keydown", event => {
  const step = { ArrowUp: -1, ArrowDown: 1 }[event.key];
  if (!step || event.altKey || event.ctrlKey || event.metaKey || event.shiftKey || ["TEXTAREA", "INPUT", "SELECT"].includes(event.target.tagName)) return;
  event.preventDefault();
  goTo(current + step);
});
ui.pictures.addEventListener("keydown", event => {
  const step = { ArrowLeft: -1, ArrowRight: 1 }[event.key];
  if (step) { event.preventDefault(); lightNext(step); }
});
for (const kind of ["pointerover", "click"]) ui.pictures.addEventListener(kind, event => {
  const rect = event.target.previousElementSibling?.dataset?.at && event.target.tagName === "text" ? event.target.previousElementSibling : event.target;
  if (rect.dataset?.at) light(+rect.closest("figure").dataset.buffer, +rect.dataset.at);
});
ui.all.addEventListener("change", () => show(current));
ui.cells.addEventListener("toggle", () => { if (ui.cells.open && shown) show(current); });
addEventListener("resize", () => { if (run && shown) show(current); });
ui.editor.addEventListener("scroll", paint);
ui.stop.addEventListener("click", stop);
setInterval(watch, WAIT / 4);
ui.examples.addEventListener("change", () => { if (language.examples[ui.examples.value]) { replace(language.examples[ui.examples.value]); start(); } });
ui.open.addEventListener("click", () => ui.chosen.click());
ui.chosen.addEventListener("change", () => take(ui.chosen.files));
for (const kind of ["dragover", "dragleave", "drop"]) addEventListener(kind, event => {
  event.preventDefault();
  document.body.classList.toggle("drops", kind === "dragover");
  if (kind === "drop") take(event.dataTransfer.files);
});
ui.page.addEventListener("click", savePage);
ui.link.addEventListener("click", async () => {
  const link = await linkOf(ui.script.value);
  const long = link.length > MOST_LINK ? `The link has ${link.length} letters: some programs cut links above 8 KB.` : "The link is copied; it carries the script, but no files.";
  if (location.protocol !== "file:") await copy(link, long);
  else await copy(link, `${long} This page is on a disk: the link works on this computer only.`, made("button", "Save a page with the script for others", { type: "button", onclick: savePage }));
});
ui.numpy.addEventListener("click", () => run.ask("numpy").then(text => copy(text, "The script is copied in NumPy's lines; a line without one is a comment.")));
ui.svg.addEventListener("click", async () => { if (shown) save(`line-${shown.number}.svg`, await run.ask("svg", shown.line), "image/svg+xml"); });
/** Shows the script of a link. It runs at once only if it cannot run long. */
async function open({ text, line, fault }) {
  if (fault) noteFor(600, fault);
  if (text === undefined || text === ui.script.value) { if (line) goTo(line - 1); return; }
  replace(text);
  if (!mightRunLong(text)) { await start(false, line ? line - 1 : caretLine()); if (line) goTo(line - 1); return; }
  waits();
}

/** Shows a script without running it, with a button that does. */
function waits() {
  hold = { at: 0, why: "This script came with a link and might run long. " };
  generation += 1;
  measure();
  run.run([""], 0, 0);
  show(0);
}

/** What the page needs and the browser lacks. */
const lacking = () => [["WebAssembly", globalThis.WebAssembly], ["DecompressionStream", globalThis.DecompressionStream]].filter(([, has]) => !has).map(([name]) => name);

addEventListener("hashchange", async () => open(await linked()));

async function begin() {
  dress(32);
  if (!globalThis.CompressionStream) Object.assign(ui.link, { disabled: true, title: "This browser has no CompressionStream" });
  for (const name of Object.keys(language.examples)) ui.examples.append(made("option", name, { value: name }));
  for (const [name, text] of Object.entries(given.files ?? {})) files.set(name, bytesOf64(text));
  const asked = await linked();
  if (given.title) document.title = `${given.title} - bench`;
  write(asked.text ?? kept() ?? given.script ?? language.examples.mirrored);
  if (given.script === undefined) ui.script.focus({ preventScroll: true });
  else document.body.classList.add("drawn");
  measure();
  paint();
  run = window.bench = new Run(await WebAssembly.compile(await unpacked(at("program").textContent, "gzip")), given.undo ?? 16);
  if (asked.fault) noteFor(600, asked.fault);
  if (asked.text !== undefined && mightRunLong(asked.text)) { waits(); return; }
  await start(false, (asked.line || given.line || linesOf(ui.script.value).length) - 1);
  const { selectionStart } = ui.script, mine = generation, line = asked.line || given.line ? current : await run.ask("telling") ?? 0;
  if (mine === generation && selectionStart === ui.script.selectionStart) goTo(line);
}

const missing = lacking();
if (missing.length) ui.words.textContent = `This browser has no ${missing.join(" and no ")}, which the page needs. (Some browsers switch WebAssembly off in a protected mode.)`;
else await begin();
