"use strict";
// Writes down the calls of preview1 that a guest makes, each as two lines of JSON: its numbers and what it reads of the
// guest's memory, before it is made; its answer and what it put there, once it is answered. A job says to which file, by
// `log`, what the calls are, by `calls`, and how many bytes a subscription and an event have.

const { closeSync, openSync, writeSync } = require("node:fs");

const RECORD = 8; // bytes of a record of a buffer: address and length

/** A recorder: `lend` takes the guest's memory before its first call, and `wrapped` the functions of its calls. */
module.exports = (job) => {
  const log = openSync(job.log, "w");
  let memory = null;
  const write = (value) => writeSync(log, JSON.stringify(value) + "\n");

  const hex = (address, length) => {
    const size = memory.buffer.byteLength;
    if (address + length > size) return null;
    return Buffer.from(memory.buffer, address, length).toString("hex");
  };

  // The buffers of a list of records: address, length.
  const buffers = (address, count) => {
    const found = [];
    for (let place = 0; place < count; place += 1) {
      const at = address + RECORD * place;
      if (at + RECORD > memory.buffer.byteLength) return null;
      const view = new DataView(memory.buffer, at, RECORD);
      found.push([view.getUint32(0, true), view.getUint32(4, true)]);
    }
    return found;
  };

  const whole = (given, kind) => {
    if (typeof given !== "bigint") return BigInt(given >>> 0);
    return kind === "delta" ? BigInt.asIntN(64, given) : BigInt.asUintN(64, given);
  };

  // The numbers of each argument by its name, as texts, and the result pointers behind them.
  const split = (call, given) => {
    const numbers = {};
    let place = 0;
    for (const [name, kind, width] of call.arguments) {
      numbers[name] = given.slice(place, place + width).map((number) => whole(number, kind).toString());
      place += width;
    }
    return [numbers, given.slice(place).map((number) => number >>> 0)];
  };

  // What a call reads of the memory, but for records of buffers to be filled, which are read too.
  const reads = (call, numbers) => {
    const found = {};
    for (const [name, kind] of call.arguments) {
      const [address, length] = numbers[name].map(Number);
      if (kind === "text") found[name] = hex(address, length);
      if (kind === "reads") found[name] = buffers(address, length);
      if (kind === "writes") {
        found[name] = buffers(address, length)?.map(([at, size]) => hex(at, size)) ?? null;
      }
      if (kind === "subscriptions") found[name] = hex(address, job.subscription * Number(numbers.nsubscriptions[0]));
    }
    return found;
  };

  // What a call put into buffers, where `count` is the number that it answered, if it did.
  const puts = (call, numbers, given, count) => {
    for (const [name, kind] of call.arguments) {
      const [address, length] = numbers[name].map(Number);
      if (kind === "reads") {
        let left = count;
        return (given[name] ?? []).map(([at, size]) => {
          const part = Math.min(size, left);
          left -= part;
          return hex(at, part);
        }).join("");
      }
      if (kind === "room") return hex(address, Math.min(length, count ?? length));
      if (kind === "events") return hex(address, job.event * count);
    }
    return "";
  };

  const answered = (call, numbers, given, pointers, errno) => {
    if (errno !== 0) return { errno };
    const results = call.results.map((size, place) => hex(pointers[place], size));
    const counts = ["read", "listed", "events"].includes(call.answer);
    const count = counts ? Buffer.from(results[0], "hex").readUInt32LE() : null;
    return { errno, results, put: puts(call, numbers, given, count) };
  };

  const wrap = (name, inner) => (...given) => {
    const call = job.calls[name];
    const [numbers, pointers] = split(call, given);
    const read = reads(call, numbers);
    write({ name, numbers, read });
    const errno = inner(...given);
    write(answered(call, numbers, read, pointers, errno));
    return errno;
  };

  const wrapped = (imports) => {
    const found = { ...imports };
    for (const name of Object.keys(job.calls)) {
      if (typeof found[name] === "function") found[name] = wrap(name, found[name]);
    }
    return found;
  };

  return { wrapped, write, lend: (given) => { memory = given; }, close: () => closeSync(log) };
};
