// node page_hints.mjs <GIVEN >SAID: what the page says of refused lines. Of JSON with the page's tables and scripts, each with the lines that it begins
// with and the lines that are typed then; out come of each the replies' codes, the offered lines and the texts, or null for an accepted line.
import { readFileSync } from "node:fs";
import { Bench, load } from "../../dist/bench.mjs";
import { Trace } from "../../page/trace.mjs";
import { Hints } from "../../page/hints.mjs";
import { Language } from "../../page/language.mjs";

const program = await WebAssembly.compile(readFileSync(new URL("../../dist/bench.wasm", import.meta.url)));
const { tables, scripts } = JSON.parse(readFileSync(0, "utf8")), language = new Language(tables), spare = await load(program), calls = await load(program);

function told({ begin, typed }) {
  const trace = new Trace(undo => new Bench(calls, undo), { undo: 16, text: "" }), hints = new Hints(language, () => new Bench(spare, 0));
  for (const line of begin) trace.step(line);
  const said = typed.map(line => {
    trace.free = "_page_free";
    const moment = trace.step(line);
    if (/^ok (?!save)/.test(moment.reply.text)) trace.step("undo");
    return moment.reply.accepted ? null : { code: moment.reply.code, ...language.hint(moment, hints, trace.bench.files) };
  });
  trace.close();
  return said;
}
process.stdout.write(JSON.stringify(scripts.map(told)));
