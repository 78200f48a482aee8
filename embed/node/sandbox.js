"use strict";
// A sandbox of the proved calls for guests of wasi_snapshot_preview1, run by this process's WebAssembly.
//
//     const { Sandbox } = require("./sandbox.js");
//     const sandbox = new Sandbox(scriptText);
//     const instance = new WebAssembly.Instance(module, { wasi_snapshot_preview1: sandbox.imports });
//     const status = sandbox.start(instance);
//     const report = JSON.parse(sandbox.report());
//     sandbox.end();
//
// `./build` makes the addon that this stands on, of addon.c. docs/embedding.md says what is proved, and what isn't.

const native = require("./out/wasi.node");

const EXIT = 259;
const EMPTY = 261;
const ALONE = 277;
const NO_NODE = 279;
const DIRECTORY = 280;
const STOPS = {
  256: ["pointer", "an address outside the guest's memory, or one that isn't aligned"],
  257: ["table", "more descriptors than the script's table has room for"],
  258: ["exit", "a status of 126 or more"],
  260: ["memory", "the host has no memory left"],
  261: ["ended", "the sandbox was ended"],
};
const REFUSALS = {
  260: ["memory", "there isn't enough memory"],
  270: ["long", "it has more than 16,777,216 bytes"],
  271: ["json", "it isn't JSON"],
  272: ["shape", "it isn't of a script's shape"],
  273: ["tree", "its nodes are no tree"],
  274: ["limit", "it passes a limit"],
  275: ["guest", "it has calls, a memory, or ranges of it to be shown"],
  276: ["ownTree", "it has nodes or limits of its own, where a base has them"],
};

/** What all exceptions of a sandbox are; `code` is the number of wasi.h, and `reason` its word. */
class SandboxError extends Error {
  constructor(message, code, reason) {
    super(message);
    this.name = new.target.name;
    this.code = code;
    this.reason = reason;
  }
}

/** The script was refused: no sandbox was begun. */
class Refused extends SandboxError {}

/** The guest was stopped: by a trap, or since memory was wanted. What it has and its tree are as before the call. */
class Trap extends SandboxError {}

/** The guest ended by proc_exit, with `status`. */
class Exit extends SandboxError {
  constructor(status) {
    super(`the guest ended with status ${status}`, EXIT, "exit");
    this.status = status;
  }
}

/** The sandbox was used after `end`. */
class Ended extends SandboxError {
  constructor() {
    super("the sandbox was ended", EMPTY, "ended");
  }
}

const worded = (table, code) => table[code] ?? ["unknown", `code ${code}`];

// The exception that a call throws in the guest's place, by which its engine leaves it.
const stop = (code, status) => {
  if (code === EXIT) return new Exit(status);
  if (code === EMPTY) return new Ended();
  const [reason, words] = worded(STOPS, code);
  return new Trap(`the guest was stopped: ${words}`, code, reason);
};

// What the addon told, or the exception where that is a code.
const told_of = (what, told) => {
  if (typeof told === "number") throw new SandboxError(`there is no ${what}: code ${told}`, told, "memory");
  return told;
};

/** A node has no bytes to read: there is none of the number, or it is a directory. */
class Unread extends SandboxError {
  constructor(number, code) {
    const directory = code === DIRECTORY;
    super(directory ? `node ${number} is a directory` : `there is no node ${number}`, code, directory ? "directory" : "noNode");
  }
}

// A number of a node, an offset or a length, as the addon takes it.
const counted = (number) => {
  if (!Number.isSafeInteger(number) || number < 0) throw new TypeError("a number is a whole one, and not below 0");
  return BigInt(number);
};

const time_of = (seconds, nanoseconds) => ({ seconds: BigInt.asIntN(64, seconds), nanoseconds: Number(nanoseconds) });

// The names of a listing, as `wasi_entries` of wasi.h lays them out, each with the number of its node.
const entries_of = (listing) => {
  const entries = [];
  for (let at = 0; at < listing.length;) {
    const end = listing.indexOf(0, at + 8);
    entries.push([listing.toString("utf8", at + 8, end), Number(listing.readBigUInt64LE(at))]);
    at = end + 1;
  }
  return entries;
};

/**
 * A tree that sandboxes stand over, as `commit` makes it. Nothing changes it, and it stays for as long as the program
 * runs: its memory is never given back, also once the base is forgotten.
 */
class Base {}

const bases = new WeakMap(); // what the addon made, of each Base

class Sandbox {
  #held;
  #imports;

  /**
   * Begins a sandbox by the text of a script without calls, memory and ranges to be shown. Over a base, whose tree
   * isn't copied, the script has `[]` as its `nodes` and no `limits`, and its preopens name directories of the base by
   * their numbers there; no other sandbox sees what is changed in this one. Throws `Refused`.
   */
  constructor(script, base) {
    if (typeof script !== "string") throw new TypeError("a script is a text");
    if (base !== undefined && !bases.has(base)) throw new TypeError("a base is what `commit` makes");
    const begun = native.begin(new TextEncoder().encode(script), stop, bases.get(base));
    if (typeof begun === "number") {
      const [reason, words] = worded(REFUSALS, begun);
      throw new Refused(`the script is refused: ${words}`, begun, reason);
    }
    this.#held = begun;
    this.#imports = Object.freeze(native.imports(begun));
  }

  /** The functions of preview1. They work on the memory that was lent last, and throw `Trap` or `Exit`. */
  get imports() {
    return this.#imports;
  }

  /** Lends the guest's memory to its calls: each takes its bytes as they are then, since it may grow. */
  lend(memory) {
    this.#check();
    if (!(memory instanceof WebAssembly.Memory)) throw new TypeError("a guest's memory is a WebAssembly.Memory");
    native.lend(this.#held, memory);
  }

  /** Lends the memory that a guest exports as `memory`, and runs its `_start`: its exit status. Throws `Trap`. */
  start(instance) {
    this.lend(instance.exports.memory);
    if (typeof instance.exports._start !== "function") throw new TypeError("the guest exports no function _start");
    try {
      instance.exports._start();
    } catch (error) {
      if (error instanceof Exit) return error.status;
      throw error;
    }
    return 0;
  }

  /** Lends the memory that a guest exports as `memory`, and runs its `_initialize` if there is one. */
  initialize(instance) {
    this.lend(instance.exports.memory);
    instance.exports._initialize?.();
  }

  /** How many calls were answered, as `wasi_answered` of wasi.h counts them. */
  get answered() {
    this.#check();
    return native.answered(this.#held);
  }

  /** How much of its quotas the guest has used, as BigInts: `nodes`, its makings, and `bytes`, by which files grew. */
  get quotaUsed() {
    this.#check();
    const [nodes, bytes] = native.quotaUsed(this.#held);
    return { nodes, bytes };
  }

  /** The report of the sandbox as it stands: a JSON text, in which `answers` and `memory` are empty. */
  report() {
    this.#check();
    return told_of("report", native.report(this.#held)).toString();
  }

  /** Makes a `Base` of the tree as it stands: a copy, which is never given back. The sandbox stays as it is. */
  commit() {
    this.#check();
    const base = new Base();
    bases.set(base, told_of("base", native.commit(this.#held)));
    return base;
  }

  /**
   * The numbers of the nodes that calls have worked on, rising, as the report numbers them; a read or a look works on
   * none (docs/scripts.md, "A trial"). `null` of a sandbox over no base.
   */
  kept() {
    this.#check();
    const kept = native.kept(this.#held);
    return kept === ALONE ? null : told_of("list", kept).map(Number);
  }

  /**
   * The node of a number, as the report numbers them, in the tree as it stands: `filetype` (3 of a directory, 4 of a
   * file, 7 of a link), `links`, `size` in bytes, `removed`, and the times `atime`, `mtime` and `btime`, each with
   * `seconds`, a BigInt, and `nanoseconds`. `null` where no node has the number. This and the methods up to `stderr` only
   * read: no node counts as accessed, and no call is counted. They answer alike after the guest was stopped or ended.
   */
  node(number) {
    this.#check();
    const told = native.node(this.#held, counted(number));
    if (told === NO_NODE) return null;
    const [filetype, links, size, removed, ...times] = told;
    const [atime, mtime, btime] = [0, 2, 4].map((place) => time_of(times[place], times[place + 1]));
    return { filetype: Number(filetype), links: Number(links), size: Number(size), removed: removed === 1n, atime, mtime, btime };
  }

  /**
   * The bytes of a file, or of a link's text, from an offset on, as many as there are up to a length: a Buffer, of no
   * bytes at or past the end. Without a length all bytes from there on. Throws `Unread`.
   */
  read(number, from = 0, length = Infinity) {
    this.#check();
    const size = this.node(number)?.size ?? 0;
    const bytes = Buffer.alloc(Math.min(length, Math.max(size - from, 0)));
    const told = native.read(this.#held, counted(number), counted(from), bytes);
    if (typeof told === "number") throw new Unread(number, told);
    return bytes;
  }

  /**
   * The number of the node that a directory holds under a name, which is no path; a link isn't followed. `null` where it
   * holds none, and of what is no directory.
   */
  entry(directory, name) {
    this.#check();
    const told = native.entry(this.#held, counted(directory), Buffer.from(name));
    return told === NO_NODE ? null : Number(told);
  }

  /** All names of a directory, in byte order, each a list of it and its node's number; none of what is no directory. */
  entries(directory) {
    this.#check();
    return entries_of(told_of("listing", native.entries(this.#held, counted(directory))));
  }

  /** What the guest wrote so far to the standard output: a Buffer. */
  stdout() {
    this.#check();
    return native.output(this.#held, false);
  }

  /** What the guest wrote so far to the standard error: a Buffer. */
  stderr() {
    this.#check();
    return native.output(this.#held, true);
  }

  /** Gives back the tree and all else. What is used after it throws `Ended`; a second `end` does nothing. */
  end() {
    native.end(this.#held);
  }

  #check() {
    if (native.answered(this.#held) === undefined) throw new Ended();
  }
}

module.exports = { Sandbox, Base, SandboxError, Refused, Unread, Trap, Exit, Ended };
