// node page_replies.mjs <SCRIPTS >REPLIES: runs scripts by dist/bench.mjs. Of each its lines and files in base64 and its undo depth, as JSON;
// out come the replies to its lines and the files that are left.
import fs from "node:fs";
import { Bench, load } from "../../dist/bench.mjs";

const calls = await load(new URL("../../dist/bench.wasm", import.meta.url)), text = bytes => Buffer.from(bytes).toString("base64");
const told = JSON.parse(fs.readFileSync(0, "utf8")).map(({ lines, files, undo }) => {
  const bench = new Bench(calls, undo);
  for (const [name, bytes] of Object.entries(files)) bench.files.set(name, Buffer.from(bytes, "base64"));
  const replies = lines.map(line => bench.answer(Buffer.from(line, "base64")).text);
  const left = Object.fromEntries([...bench.files].map(name => [name, text(bench.files.get(name))]));
  bench.close();
  return { replies, files: left };
});
fs.writeFileSync(1, JSON.stringify(told));
