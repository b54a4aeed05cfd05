// Tables drawn as SVG, in blocks of as many columns as there is room for; a picture of one line, for documents.

const LETTER = 7.3, LINE = 21, WIDTH = 720;
const LIGHT = "--ink:#1a1a1a;--dim:#5f5f5f;--line:#9a9a9a;--page:#fff;--mark:#ffe28a;--wrote:#e8f0d8;--light:.48;--vivid:.13";
const DARK = "--ink:#eee;--dim:#aaa;--line:#777;--page:#16181d;--mark:#6b5200;--wrote:#2b3a22;--light:.78;--vivid:.12";
const RULES = `
svg text{font:12px ui-monospace,Menlo,Consolas,monospace;fill:var(--ink)}svg rect{fill:none;stroke:var(--line)}svg .head{font-weight:bold}
svg .page{fill:var(--page);stroke:none}.place text,.field text,.old text{fill:var(--dim)}.place rect,.field rect,.column rect,svg .gap{stroke:none}
.old rect,svg .pad,.goes rect{stroke-dasharray:3 2}.old .x+text{text-decoration:line-through}
.now .x,.grid .x{fill:var(--mark);stroke:var(--ink);stroke-width:2}.now .w,.grid .w{fill:var(--wrote);stroke:var(--ink)}
.name rect{fill:var(--c);stroke:var(--page)}.name text{fill:var(--page)}svg .stripe{fill:var(--page);stroke:none;pointer-events:none}.name .x{stroke:var(--ink);stroke-width:2}.name.goes rect{fill:none;stroke:var(--c)}
.appears .label,.comes .label,.asked .label{text-decoration:underline}.name .label,.grid .label,.name.goes text,.column text,.note{fill:var(--c);font-weight:bold}
svg path{fill:none;stroke:var(--ink);stroke-width:1.5;marker-end:url(#tip)}#tip path{fill:var(--ink);stroke:none}`;
/** The rule of a colour. All are as light; each turns the hue by the golden angle, which spreads the first ones evenly, however many they are. */
const ruleOf = hue => `.h${hue}{--c:oklch(var(--light) var(--vivid) ${fixed((250 + 137.508 * hue) % 360)})}`;
/** The rules of pictures with these colours, and the head of their arrows. */
export const STYLE = (selector, hues) => `${selector}{${LIGHT}}@media(prefers-color-scheme:dark){${selector}{${DARK}}}${hues.map(ruleOf).join("")}${RULES}`;
export const TIP = '<marker id="tip" viewBox="0 0 8 8" refX="7" refY="4" markerWidth="6" markerHeight="6" orient="auto"><path d="M0 0L8 4L0 8z"/></marker>';
const ENTITIES = { "&": "&amp;", "<": "&lt;", ">": "&gt;", '"': "&quot;", "'": "&#x27;" };

export const escape = text => text.replace(/[&<>"']/g, letter => ENTITIES[letter]);
const fixed = number => number.toFixed(1);

function textAt(x, y, text, room, more = "") {
  const kept = text.length <= room ? text : text.slice(0, Math.max(0, Math.floor(room) - 1)) + (room >= 1 ? "…" : "");
  return kept && `<text x="${fixed(x)}" y="${y + 13}"${more}>${escape(kept)}</text>`;
}

/** A text in lines of so many letters, broken at blanks where there are some. */
function wrapped(text, room) {
  const lines = [""];
  for (const word of text.split(" ")) {
    if (lines.at(-1) && lines.at(-1).length + 1 + word.length > room) lines.push("");
    let rest = (lines.at(-1) && `${lines.pop()} `) || (lines.pop(), "");
    for (rest += word; rest.length > room; rest = rest.slice(room)) lines.push(rest.slice(0, room));
    lines.push(rest);
  }
  return lines;
}

const lookOf = ({ look, hue }) => hue === undefined ? look : `${look} h${hue}`;

/** How many letters a column has room for: all texts, within bounds. */
function lettersOf(table) {
  const boxes = table.rows.flatMap(row => row.boxes.filter(box => box.text)), most = boxes.every(box => box.width === 1) ? 42 : 200;
  return Math.max(4, Math.min(most, Math.max(0, ...boxes.map(box => Math.floor((box.text.length + 1.5) / box.width)))));
}

/** The columns of a table from first to last; no values before where none of these has changed. */
function block(table, first, last, margin, width, isLive) {
  const drawn = [], inside = box => box.at >= first && box.at < last;
  let y = 0;
  for (const row of table.rows) {
    const boxes = row.boxes.filter(inside);
    if (row.look === "old" && !boxes.some(box => box.look === "x")) continue;
    if (row.isOver) y -= LINE; // it stands beside the row before
    drawn.push(`<g class="${lookOf(row)}">${row.isOver ? "" : textAt(4, y, row.label, 99, ' class="label"')}`);
    for (const { text, at, width: part, look, byte, size } of boxes) {
      const left = margin + (at - first) * width, wide = part * width, place = isLive && byte !== undefined ? ` data-at="${byte}" data-size="${size}"` : "";
      drawn.push(`<rect x="${fixed(left)}" y="${y + 1}" width="${fixed(wide)}" height="${LINE - 3}" class="${look}"${place}/>${textAt(left + wide / 2, y, text, (wide + 2) / LETTER, ' text-anchor="middle"')}`);
      for (const side of row.stripes?.split(" ") ?? []) drawn.push(side && `<rect class="stripe" x="${fixed(side === "left" ? left + 3 : left + wide - 5)}" y="${y + 3}" width="2" height="${LINE - 7}"/>`);
    }
    drawn.push("</g>");
    y += LINE;
    if (row.look !== "old" || !table.moves.length) continue;
    const places = table.moves.filter(([, to]) => to >= first && to < last).map(pair => pair.map(x => margin + (Math.min(Math.max(x, first), last) - first) * width));
    drawn.push(...places.map(([begin, end]) => `<path d="M${fixed(begin)} ${y - 2}L${fixed(end)} ${y + 19}"/>`));
    y += LINE;
  }
  return { drawn: drawn.join(""), width: margin + (last - first) * width + 2, height: y };
}

/** A table as blocks of at least one column each, the first below its caption and the notes of its rows; or as its pages, behind these. */
function parts(table, room, isLive = false) {
  const told = [[table.caption, "head"], ...table.rows.filter(row => row.note).map(row => [row.note, `note ${lookOf(row)}`])];
  const lines = told.flatMap(([text, look]) => wrapped(text, Math.floor(room / LETTER) - 1).map(line => [line, look])), height = lines.length * (LINE - 4) + 6;
  const head = lines.map(([line, look], k) => textAt(4, k * (LINE - 4), line, line.length, ` class="${look}"`)).join("");
  const margin = 12 + LETTER * Math.max(...table.rows.map(row => row.isOver ? 0 : row.label.length)), longest = Math.max(...lines.map(([line]) => line.length));
  const most = table.columns ? Math.max(0, ...table.rows.map(row => row.boxes.length / table.columns)) : 0;
  const width = Math.min(lettersOf(table), Math.max(80, Math.floor(5 * most))) * LETTER, across = Math.max(1, Math.floor((room - margin) / width)), made = [];
  if (table.pages) return [{ drawn: head, width: 8 + LETTER * longest, height }, ...table.pages.map(rows => block({ ...table, rows }, 0, table.columns, margin, width, isLive))];
  for (let first = 0; first < Math.max(1, table.columns); first += across) {
    const part = block(table, first, Math.min(table.columns, first + across), margin, width, isLive);
    made.push(first ? part : { drawn: `${head}<g transform="translate(0 ${height})">${part.drawn}</g>`, width: Math.max(8 + LETTER * longest, part.width), height: height + part.height });
  }
  return made;
}

/** A table as a figure of a page that has so much room; its boxes have their bytes. */
export function figure(table, room) {
  const drawn = parts(table, room, true).map(part => `<svg width="${Math.ceil(part.width)}" height="${part.height}" viewBox="0 0 ${Math.ceil(part.width)} ${part.height}">${part.drawn}</svg>`);
  return `<figure data-buffer="${table.buffer}">${drawn.join("")}</figure>`;
}

/** The picture of a line, which stands alone, with its text for those who do not see it. What has room stands side by side. */
export function picture(line, tables, words) {
  const drawn = [textAt(8, 6, line, 96)], hues = new Set(tables.flatMap(table => table.rows.flatMap(row => row.hue ?? [])));
  let [x, y, below, wide] = [4, 30, 30, WIDTH];
  for (const part of tables.flatMap(table => parts(table, WIDTH))) {
    if (x + part.width > WIDTH) [x, y] = [4, below];
    drawn.push(`<g transform="translate(${fixed(x)} ${y})">${part.drawn}</g>`);
    [x, below, wide] = [x + part.width + 24, Math.max(below, y + part.height + 14), Math.max(wide, Math.floor(part.width) + 8)];
  }
  return [`<svg xmlns="http://www.w3.org/2000/svg" viewBox="0 0 ${wide} ${below}" width="${wide}" height="${below}" role="img" aria-labelledby="title words">`
    + `<title id="title">${escape(line)}</title><desc id="words">${escape(words)}</desc>`,
    `<style>${STYLE("svg", [...hues])}</style>${TIP}<rect class="page" width="${wide}" height="${below}"/>`, ...drawn, "</svg>\n"].join("\n");
}
