// Runs a guest by node:wasi, and writes down each call of preview1, by recorder.cjs. `tools/record` starts it, and says in
// a file what to run and what the calls are.

import { readFileSync } from "node:fs";
import { WASI } from "node:wasi";
import recorder from "./recorder.cjs";

const job = JSON.parse(readFileSync(process.argv[2], "utf8"));
const { wrapped, write, lend, close } = recorder(job);

const run = async () => {
  const wasi = new WASI({ version: "preview1", args: job.args, env: {}, preopens: job.preopens, returnOnExit: true });
  const module = await WebAssembly.compile(readFileSync(job.guest));
  const instance = await WebAssembly.instantiate(module, { wasi_snapshot_preview1: wrapped(wasi.wasiImport) });
  lend(instance.exports.memory);
  return wasi.start(instance) ?? 0;
};

try {
  write({ status: await run() });
} catch (error) {
  const kind = error instanceof WebAssembly.RuntimeError ? "trap" : "fault";
  write({ [kind]: String(error.message ?? error) });
}
close();
