"use strict";
// Times what calls.wasm does under one of two hosts: `node embed/node/bench.js proved|node GUEST FOLDER OPEN ROUNDS`.
// FOLDER is node:wasi's, and OPEN is how many descriptors are opened beforehand. A line of JSON has the processor's
// nanoseconds of each call by its export.

const fs = require("node:fs");
const { WASI } = require("node:wasi");
const { Sandbox } = require("./sandbox.js");

const EXPORTS = ["tell", "read_16", "read_4096", "write_16", "write_4096", "open_1", "open_8", "stat_1", "rename_there",
  "list", "list_all"];
const FEWER = 100; // of list_all so many times fewer rounds are made
const WARM_UP = 1000;

const [host, guest, folder, open, rounds] = process.argv.slice(2);
const module_ = new WebAssembly.Module(fs.readFileSync(guest));
const instance_of = (imports) => new WebAssembly.Instance(module_, { wasi_snapshot_preview1: imports });

const proved = () => {
  const sandbox = new Sandbox(JSON.stringify({
    nodes: [{ dir: {} }], preopens: [{ node: 0, name: "/", perms: "rw" }], calls: [], table: 65536,
  }));
  const instance = instance_of(sandbox.imports);
  sandbox.initialize(instance);
  return instance;
};

const node = () => {
  const wasi = new WASI({ version: "preview1", preopens: { "/": folder } });
  const instance = instance_of(wasi.wasiImport);
  wasi.initialize(instance);
  return instance;
};

const call = (calls, name, ...words) => {
  const errors = calls[name](...words);
  if (errors !== 0) throw new Error(`${name}: errors ${errors}`);
};

const time_of = (calls, name) => {
  const fewer = name === "list_all" ? FEWER : 1;
  const made = Number(rounds) / fewer;
  call(calls, name, WARM_UP / fewer);
  const begun = process.cpuUsage();
  call(calls, name, made);
  const { user, system } = process.cpuUsage(begun);
  return (1000 * (user + system)) / made;
};

const calls = { proved, node }[host]().exports;
call(calls, "prepare");
call(calls, "fill", Number(open));
console.log(JSON.stringify(Object.fromEntries(EXPORTS.map((name) => [name, time_of(calls, name)]))));
