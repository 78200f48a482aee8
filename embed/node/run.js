"use strict";
// Runs a program for wasm32-wasi over a sandbox, and writes its report.
//
//     node embed/node/run.js GUEST.wasm SCRIPT REPORT [JOB]
//
// With a JOB its calls are written down too, by tools/wasitools/recorder.cjs, which says what a job is.
// The status is the guest's; 134 where it was stopped by a trap, whose words stand on standard error. Where the guest
// couldn't be run no report is written, the status is 70, and standard error says why.

const fs = require("node:fs");
const { Sandbox, Trap } = require("./sandbox.js");

const STOPPED = 134;
const FAILED = 70;

const say = (words) => fs.writeSync(2, `wasirun: ${words}\n`);

const instance_of = (guest, imports) => {
  const module = new WebAssembly.Module(fs.readFileSync(guest));
  return new WebAssembly.Instance(module, { wasi_snapshot_preview1: imports });
};

// The status of a guest that was begun. A trap of its own is its engine's exception.
const run = (sandbox, instance) => {
  try {
    return sandbox.start(instance);
  } catch (error) {
    if (error instanceof Trap) say(error.message);
    else if (error instanceof WebAssembly.RuntimeError) say(`the guest was stopped: ${error.message}`);
    else throw error;
    return STOPPED;
  }
};

// Runs a guest whose calls are written down.
const recorded = (guest, sandbox, job) => {
  const recorder = require("../../tools/wasitools/recorder.cjs");
  const { wrapped, lend, close } = recorder(JSON.parse(fs.readFileSync(job, "utf8")));
  const instance = instance_of(guest, wrapped(sandbox.imports));
  lend(instance.exports.memory);
  const status = run(sandbox, instance);
  close();
  return status;
};

const main = (guest, script, report, job) => {
  const sandbox = new Sandbox(fs.readFileSync(script, "utf8"));
  const status = job ? recorded(guest, sandbox, job) : run(sandbox, instance_of(guest, sandbox.imports));
  fs.writeFileSync(report, sandbox.report());
  sandbox.end();
  return status;
};

try {
  process.exitCode = main(...process.argv.slice(2));
} catch (error) {
  say(`the guest can't be run: ${error.message}`);
  process.exitCode = FAILED;
}
