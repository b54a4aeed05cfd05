// The scripts of standard input, a list of lists of lines as JSON, in NumPy's lines: a list of texts.
import { readFileSync } from "node:fs";
import { Bench, load } from "../../dist/bench.mjs";
import { Trace } from "../../page/trace.mjs";
import { inNumPy } from "../../page/numpy.mjs";

const program = await WebAssembly.compile(readFileSync(new URL("../../dist/bench.wasm", import.meta.url)));
const texts = [];
for (const lines of JSON.parse(readFileSync(0, "utf8"))) {
  const calls = await load(program), trace = new Trace(undo => new Bench(calls, undo), { undo: 16, text: lines.join("\n") });
  texts.push(inNumPy(lines.map(line => trace.step(line))));
}
process.stdout.write(JSON.stringify(texts));
