"use strict";
// Tests of sandbox.js: `GUESTS=FOLDER node --test embed/node/check.js`, the guests of embed/guests being built in FOLDER.
// embed/check runs it.

const assert = require("node:assert");
const fs = require("node:fs");
const path = require("node:path");
const test = require("node:test");
const { Worker } = require("node:worker_threads");
const { Sandbox, Base, SandboxError, Refused, Unread, Trap, Exit, Ended } = require("./sandbox.js");

const PREVIEW1 = "wasi_snapshot_preview1";
const CALLS = fs.readFileSync(path.join(__dirname, "../../tools/wasitools/calls.txt"), "utf8").match(/^\w+/gm);
const BADF = 8;
const DQUOT = 19;
const NOENT = 44;
const PERM = 63;

const hex = (text) => Buffer.from(text).toString("hex");
const module_of = (name) => new WebAssembly.Module(fs.readFileSync(path.join(process.env.GUESTS, `${name}.wasm`)));
const EMPTY = { nodes: [{ dir: {} }], preopens: [{ node: 0, name: "/", perms: "rw" }], calls: [] };
const begin = (more = {}) => new Sandbox(JSON.stringify({ ...EMPTY, ...more }));
const SESSION = { ...EMPTY, nodes: [] };
const begin_over = (base, more = {}) => new Sandbox(JSON.stringify({ ...SESSION, ...more }), base);
const instance_of = (module, imports) => new WebAssembly.Instance(module, { [PREVIEW1]: imports });
const outputs = (sandbox) => Buffer.from(JSON.parse(sandbox.report()).stdout, "hex").toString();

// A guest of no module: a memory, and a text in it, for calls that are made from here.
const lent = (sandbox, text = "") => {
  const memory = new WebAssembly.Memory({ initial: 1 });
  Buffer.from(memory.buffer).write(text, 1024);
  sandbox.lend(memory);
  return memory;
};
const open = (sandbox, text, oflags = 0) => {
  const memory = lent(sandbox, text);
  const code = sandbox.imports.path_open(3, 0, 1024, text.length, oflags, 2n, 0n, 0, 16);
  return [code, new DataView(memory.buffer).getUint32(16, true)];
};

// Runs stops.wasm in one of its ways.
const stop_by = (way, more = {}) => {
  const sandbox = begin({ args: ["stops", way], random: "5a", ...more });
  return [sandbox, () => sandbox.start(instance_of(module_of("stops"), sandbox.imports))];
};

test("a guest in C runs, and its tree is told", () => {
  const sandbox = begin({ args: ["notes", "tea"], env: [["NAME", "Ada"]], stdin: hex("1\n2\n3\n") });
  assert.strictEqual(sandbox.start(instance_of(module_of("notes"), sandbox.imports)), 3);
  const report = JSON.parse(sandbox.report());
  assert.match(outputs(sandbox), /200 records are in their places\n\/way\/note001\n1 names below the link\n/);
  assert.match(outputs(sandbox), /standard input has 3 lines\ndone, Ada\n$/);
  assert.strictEqual(report.stderr, hex("notes: 1 words\n"));
  assert.deepStrictEqual([report.answers, report.memory], [[], []]);
  assert.deepStrictEqual(Object.keys(report.tree[0].dir), ["old", "records", "second", "way"]);
  assert.ok(sandbox.answered > 100);
});

test("a report's tree begins another sandbox", () => {
  const first = begin();
  assert.strictEqual(open(first, "kept", 1)[0], 0);
  const second = begin({ nodes: JSON.parse(first.report()).tree });
  assert.strictEqual(open(second, "kept")[0], 0);
  assert.strictEqual(open(second, "gone")[0], NOENT);
});

test("imports are the functions of preview1, and take what a guest gives", () => {
  const sandbox = begin();
  assert.deepStrictEqual(Object.keys(sandbox.imports), CALLS);
  lent(sandbox);
  assert.strictEqual(sandbox.imports.fd_close(77), BADF);
  assert.strictEqual(sandbox.imports.fd_close(-1), BADF);
  assert.throws(() => sandbox.imports.fd_close(), TypeError);
  assert.throws(() => sandbox.imports.fd_close("4"), TypeError);
  assert.throws(() => sandbox.imports.fd_seek(3, 0, 0, 8), TypeError); // an offset has 64 bits
  assert.strictEqual(sandbox.imports.fd_seek(3, -1n, 0, 8), BADF);
  assert.strictEqual(sandbox.answered, 3);
});

test("without a memory no call is made", () => {
  const sandbox = begin();
  assert.throws(() => sandbox.imports.fd_close(3), /no memory is lent/);
  assert.throws(() => sandbox.lend({ buffer: new ArrayBuffer(8) }), TypeError);
  assert.throws(() => sandbox.lend(new WebAssembly.Memory({ initial: 1, maximum: 1, shared: true })), /can't|no bytes/);
  assert.strictEqual(sandbox.answered, 0);
});

test("a memory of no bytes, and one that grows", () => {
  const sandbox = begin({ random: "5a" });
  const memory = new WebAssembly.Memory({ initial: 0, maximum: 4 });
  sandbox.lend(memory);
  assert.strictEqual(sandbox.imports.random_get(0, 0), 0);
  memory.grow(1);
  assert.strictEqual(sandbox.imports.random_get(65535, 1), 0);
  assert.strictEqual(new Uint8Array(memory.buffer)[65535], 0x5a);
  memory.grow(1);
  assert.strictEqual(sandbox.imports.random_get(131071, 1), 0);
  assert.strictEqual(new Uint8Array(memory.buffer)[131071], 0x5a);
  assert.throws(() => sandbox.imports.random_get(131071, 2), Trap);
});

test("a guest's memory grows while it runs", () => {
  const [sandbox, run] = stop_by("grow");
  assert.strictEqual(run(), 0);
  assert.strictEqual(outputs(sandbox), "closing 77: 8\ngrown\n");
});

test("each way to end is told by its exception", () => {
  for (const [way, reason] of [["unaligned", "pointer"], ["far", "pointer"], ["long", "pointer"], ["status", "exit"]]) {
    const [sandbox, run] = stop_by(way);
    assert.throws(run, (error) => error instanceof Trap && error.reason === reason, way);
    assert.strictEqual(outputs(sandbox), "closing 77: 8\n", way);
  }
  assert.strictEqual(stop_by("exit")[1](), 7);
  assert.strictEqual(stop_by("return")[1](), 0);
  assert.throws(stop_by("unreachable")[1], WebAssembly.RuntimeError);
});

test("a descriptor too many is a trap", () => {
  const sandbox = begin({ table: 5 });
  assert.strictEqual(open(sandbox, "a", 1)[0], 0);
  assert.throws(() => open(sandbox, "a"), (error) => error instanceof Trap && error.reason === "table");
});

test("quotas bound what a guest makes and grows", () => {
  const sandbox = begin({ quota: { nodes: 1, bytes: 9 } });
  assert.deepStrictEqual(sandbox.quotaUsed, { nodes: 0n, bytes: 0n });
  assert.strictEqual(open(sandbox, "a", 1)[0], 0);
  assert.strictEqual(open(sandbox, "b", 1)[0], DQUOT);
  assert.strictEqual(sandbox.imports.fd_filestat_set_size(4, 8n), 0);
  assert.strictEqual(sandbox.imports.fd_filestat_set_size(4, 10n), DQUOT);
  assert.deepStrictEqual(sandbox.quotaUsed, { nodes: 1n, bytes: 8n });
});

test("sandboxes over a base have their own changes", () => {
  const first = begin();
  assert.strictEqual(open(first, "old", 1)[0], 0);
  assert.strictEqual(first.kept(), null);
  const base = first.commit();
  assert.ok(base instanceof Base);
  first.end();
  const [one, other] = [begin_over(base), begin_over(base)];
  assert.deepStrictEqual(one.kept(), []);
  assert.strictEqual(open(one, "new", 1)[0], 0);
  assert.deepStrictEqual([open(other, "new")[0], open(other, "old")[0]], [NOENT, 0]);
  assert.deepStrictEqual([one.kept(), other.kept()], [[0, 2], []]);
  const next = one.commit();
  one.end();
  other.end();
  assert.strictEqual(open(begin_over(next), "new")[0], 0);
  assert.strictEqual(open(begin_over(base), "new")[0], NOENT);
});

test("results are read with a base and without one", () => {
  const nodes = [{ dir: { f: 1, way: 2 } }, { file: hex("top") }, { link: "f" }];
  const alone = begin({ nodes });
  for (const sandbox of [alone, begin_over(begin({ nodes }).commit())]) {
    assert.strictEqual(open(sandbox, "new", 1)[0], 0);
    const memory = Buffer.from(lent(sandbox, "words").buffer);
    memory.writeUInt32LE(1024, 0);
    memory.writeUInt32LE(5, 4);
    assert.strictEqual(sandbox.imports.fd_write(2, 0, 1, 8), 0);
    const epoch = { seconds: 0n, nanoseconds: 0 };
    const told = { links: 1, removed: false, atime: epoch, mtime: epoch, btime: epoch };
    assert.deepStrictEqual(sandbox.node(0), { ...told, filetype: 3, size: 0 });
    assert.deepStrictEqual(sandbox.node(1), { ...told, filetype: 4, size: 3 });
    assert.deepStrictEqual(sandbox.node(2), { ...told, filetype: 7, size: 1 });
    assert.strictEqual(sandbox.node(4), null);
    assert.deepStrictEqual(sandbox.entries(0), [["f", 1], ["new", 3], ["way", 2]]);
    assert.deepStrictEqual([sandbox.entries(1), sandbox.entries(9)], [[], []]);
    assert.deepStrictEqual(["f", "new", "gone", "."].map((name) => sandbox.entry(0, name)), [1, 3, null, null]);
    assert.deepStrictEqual([sandbox.read(1), sandbox.read(1, 1, 1), sandbox.read(1, 3)].map(String), ["top", "o", ""]);
    assert.deepStrictEqual([sandbox.read(2), sandbox.read(3)].map(String), ["f", ""]);
    for (const [number, reason] of [[0, "directory"], [4, "noNode"]]) {
      assert.throws(() => sandbox.read(number), (error) => error instanceof Unread && error.reason === reason);
    }
    assert.throws(() => sandbox.node(-1), TypeError);
    assert.deepStrictEqual([sandbox.stdout(), sandbox.stderr()].map(String), ["", "words"]);
    assert.strictEqual(sandbox.answered, 2);
  }
});

test("scripts over a base that are refused say why", () => {
  const base = begin().commit();
  const refused = {
    json: "",
    ownTree: JSON.stringify(EMPTY),
    limit: JSON.stringify({ ...SESSION, preopens: [{ node: 9, name: "/", perms: "rw" }] }),
    guest: JSON.stringify({ ...SESSION, calls: [["sched_yield"]] }),
  };
  for (const [reason, script] of Object.entries(refused)) {
    const is_told = (error) => error instanceof Refused && error.reason === reason;
    assert.throws(() => new Sandbox(script, base), is_told, reason);
  }
  assert.throws(() => begin_over(base, { limits: { nodes: 2, links: 1 } }), (error) => error.code === 276);
  for (const none of [null, {}, new Base(), begin()]) assert.throws(() => begin_over(none), TypeError);
});

test("a guest that ended calls nothing more", () => {
  const sandbox = begin();
  lent(sandbox);
  assert.throws(() => sandbox.imports.proc_exit(9), (error) => error instanceof Exit && error.status === 9);
  assert.throws(() => sandbox.imports.fd_close(3), (error) => error instanceof Exit && error.status === 9);
  assert.strictEqual(sandbox.answered, 1);
});

test("what is used after the end is told", () => {
  const sandbox = begin();
  const { imports } = sandbox;
  lent(sandbox);
  sandbox.end();
  sandbox.end();
  const uses = [() => sandbox.report(), () => sandbox.answered, () => sandbox.quotaUsed, () => sandbox.commit(),
    () => sandbox.kept(), () => sandbox.node(0), () => sandbox.read(0), () => sandbox.entry(0, "a"),
    () => sandbox.entries(0), () => sandbox.stdout(), () => sandbox.stderr(), () => lent(sandbox),
    () => imports.fd_close(3)];
  for (const use of uses) assert.throws(use, (error) => error instanceof Ended && error instanceof SandboxError);
});

test("scripts that are refused say why", () => {
  const refused = {
    json: ["", "{", "nothing"],
    shape: ["{}", '{"nodes": [], "preopens": []}'],
    tree: ['{"nodes": [{"file": ""}], "preopens": [], "calls": []}'],
    limit: ['{"nodes": [{"dir": {}}], "preopens": [{"node": 9, "name": "/", "perms": "rw"}], "calls": []}'],
    guest: ['{"nodes": [{"dir": {}}], "preopens": [], "calls": [["sched_yield"]]}',
            '{"nodes": [{"dir": {}}], "preopens": [], "calls": [], "memory": {"size": 8, "pieces": []}}'],
    long: [" ".repeat(16_777_217)],
  };
  for (const [reason, scripts] of Object.entries(refused)) {
    for (const script of scripts) {
      assert.throws(() => new Sandbox(script), (error) => error instanceof Refused && error.reason === reason, reason);
    }
  }
  assert.throws(() => new Sandbox(), TypeError);
});

test("a guest doesn't leave its directory, and a sandbox beside it stays its own", () => {
  // node 0 holds what the guest is given, and beside it what it must not come to
  const nodes = [{ dir: { given: 1, secret: 3, beside: 4 } }, { dir: { inside: 2 } }, { file: hex("in") },
    { file: hex("secret") }, { dir: { kept: 5 } }, { file: hex("kept") }];
  const guest = begin({ nodes, preopens: [{ node: 1, name: "/", perms: "rw" }], args: ["leave"] });
  const beside = begin();
  let steps = 0;
  const step = () => {
    assert.strictEqual(open(beside, `n${steps}`, 1)[0], 0);
    assert.strictEqual(open(beside, "secret")[0], NOENT);
    assert.strictEqual(open(beside, "../secret")[0], PERM);
    steps += 1;
  };
  const mixed = Object.fromEntries(Object.entries(guest.imports).map(([name, call]) => [name, (...words) => {
    if (steps < 100) step();
    return call(...words);
  }]));
  assert.strictEqual(guest.start(instance_of(module_of("leave"), mixed)), 0, outputs(guest));
  assert.match(outputs(guest), /\n0 ways out\n$/);
  const [ours, theirs] = [JSON.parse(guest.report()), JSON.parse(beside.report())];
  assert.ok(![0, 3, 4, 5].some((node) => ours.touched.includes(node)), String(ours.touched));
  for (const node of [0, 3, 4, 5]) {
    assert.deepStrictEqual([ours.tree[node].dir, ours.tree[node].file], [nodes[node].dir, nodes[node].file]);
  }
  assert.ok(steps > 40);
  assert.deepStrictEqual(Object.keys(theirs.tree[0].dir).sort(), [...Array(steps).keys()].map((n) => `n${n}`).sort());
});

test("sandboxes that are forgotten are given back", () => {
  for (let round = 0; round < 2000; round += 1) {
    const sandbox = begin();
    open(sandbox, "a", 1);
    if (round % 2 === 0) sandbox.end();
  }
});

test("a worker has sandboxes of its own", async () => {
  const code = `const { Sandbox } = require(${JSON.stringify(path.join(__dirname, "sandbox.js"))});
    const sandbox = new Sandbox(${JSON.stringify(JSON.stringify(EMPTY))});
    sandbox.lend(new WebAssembly.Memory({ initial: 1 }));
    require("node:worker_threads").parentPort.postMessage(sandbox.imports.fd_close(77));`;
  const told = await new Promise((resolve, reject) => {
    new Worker(code, { eval: true }).on("message", resolve).on("error", reject);
  });
  assert.strictEqual(told, BADF);
});
