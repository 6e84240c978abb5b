// What a letter costs in JavaScript, beside Yjs (Debian's package node-yjs), in the same run.
//
//     NODE_PATH=/usr/share/nodejs node bench/js.mjs [COUNT]
//
// Each pair of rows is measured in turns, so that what else the machine does slows both.
import { readFileSync } from "node:fs";
import { createRequire } from "node:module";
import { Document, Peer, load } from "../bindings/js/egw.js";

const count = Number(process.argv[2] ?? 100000);
await load(readFileSync(new URL("../bindings/js/egw.wasm", import.meta.url)));
let Y = null;
try {
  Y = createRequire(import.meta.url)("yjs");
} catch {
  console.log("without Yjs: the package node-yjs isn't here");
}
const now = () => Number(process.hrtime.bigint()) / 1000;
const median = (numbers) => numbers.sort((a, b) => a - b)[numbers.length >> 1];

function drawer(seed) {
  let state = seed >>> 0;
  return (below) => {
    state = (Math.imul(state, 1664525) + 1013904223) >>> 0;
    return Math.floor((state / 4294967296) * below);
  };
}

/** Places of letters: at the end, near the last one, or anywhere. */
function places(kind) {
  const draw = drawer(7), made = new Uint32Array(count);
  let at = 0;
  for (let i = 0; i < count; i++) {
    if (kind === "at the end") at = i;
    else if (kind === "anywhere") at = draw(i + 1);
    else at = draw(12) ? Math.min(i, at + 1) : Math.max(0, Math.min(i, at - draw(40) + draw(40)));
    made[i] = at;
  }
  return made;
}

const makers = {
  egw: () => {
    const document = new Document(undefined, { agent: "ada" });
    return { put: (at) => document.insert(at, "x"), text: () => document.text(), save: () => document.save(), open: (file) => new Document(file).length, free: () => document.free() };
  },
  Yjs: Y && (() => {
    const document = new Y.Doc(), text = document.getText("t");
    return {
      put: (at) => text.insert(at, "x"),
      text: () => text.toString(),
      save: () => Y.encodeStateAsUpdate(document),
      open: (file) => {
        const other = new Y.Doc();
        Y.applyUpdate(other, file);
        return other.getText("t").length;
      },
      free: () => document.destroy(),
    };
  }),
};
const names = Object.keys(makers).filter((name) => makers[name]);

/** What each call takes, of a thousand at a time. */
function tell(what, times, unit = "µs") {
  console.log(`${what.padEnd(44)} ${names.map((name) => `${name} ${times[name].toFixed(2)} ${unit}`).join("   ")}`);
}

for (const kind of ["at the end", "near the last one", "anywhere"]) {
  const at = places(kind), each = {}, made = {}, opened = {}, saved = {}, size = {};
  for (const name of names) {
    const warm = makers[name]();
    for (let i = 0; i < 5000; i++) warm.put(at[i]);
    warm.free();
    each[name] = [];
    made[name] = makers[name]();
  }
  for (let from = 0; from < count; from += 1000) {
    for (const name of names) {
      const { put } = made[name], began = now();
      for (let i = from; i < Math.min(count, from + 1000); i++) put(at[i]);
      each[name].push((now() - began) / 1000);
    }
  }
  for (const name of names) {
    const times = [], opens = [];
    let file;
    for (let i = 0; i < 5; i++) {
      const began = now();
      file = made[name].save();
      times.push((now() - began) / 1000);
      const then = now();
      if (made[name].open(file) !== count) throw new Error("another length");
      opens.push((now() - then) / 1000);
    }
    console.log(`  ${name}: first open ${opens[0].toFixed(1)} ms`);
    [saved[name], opened[name], size[name]] = [median(times), median(opens), file.length];
  }
  for (const name of names) each[name] = median(each[name]);
  tell(`a letter ${kind}`, each);
  tell(`  save, ${names.map((name) => `${size[name]} bytes`).join(" and ")}`, saved, "ms");
  tell("  open", opened, "ms");
  for (const name of names) made[name].free();
}

// A peer's letter: received, with what it changes.
{
  const at = places("near the last one"), each = { egw: [], Yjs: [] };
  const one = new Document(), two = new Document(), peer = new Peer();
  const first = Y && new Y.Doc(), second = Y && new Y.Doc();
  let update = null, told = 0;
  first?.on("update", (bytes) => (update = bytes));
  second?.getText("t").observe((event) => (told += event.delta.length));
  const receive = {
    egw: (i) => {
      const from = one.count;
      one.insert(at[i], "x");
      const sent = one.events(from);
      const began = now();
      two.receive(peer, sent);
      if (two.changes().length !== 1) throw new Error("no change");
      return now() - began;
    },
    Yjs: (i) => {
      first.getText("t").insert(at[i], "x");
      const began = now();
      Y.applyUpdate(second, update);
      return now() - began;
    },
  };
  for (let from = 0; from < 20000; from += 1000) {
    for (const name of names) for (let i = from; i < from + 1000; i++) each[name].push(receive[name](i));
  }
  if (Y && told < 20000) throw new Error("Yjs tells no change");
  for (const name of names) each[name] = median(each[name].slice(5000));
  tell("a peer's letter, with its change", each);
}

// A peer's hundred letters beside fifty of one's own.
{
  const rounds = { egw: [], Yjs: [] };
  const one = new Document(undefined, { agent: "ada" }), two = new Document(undefined, { agent: "bob" }), peers = [new Peer(), new Peer()];
  const first = Y && new Y.Doc(), second = Y && new Y.Doc();
  for (let i = 0; i < 5000; i++) {
    one.insert(i, "x");
    first?.getText("t").insert(i, "x");
  }
  two.receive(peers[1], one.events(0));
  if (Y) Y.applyUpdate(second, Y.encodeStateAsUpdate(first));
  for (let round = 0; round < 60; round++) {
    const counts = [one.count, two.count];
    for (let i = 0; i < 50; i++) one.insert(1000 + i, "x");
    for (let i = 0; i < 100; i++) two.insert(1200 + i, "y");
    const sent = [one.events(counts[0]), two.events(counts[1])], began = now();
    one.receive(peers[0], sent[1]);
    one.changes();
    rounds.egw.push(now() - began);
    two.receive(peers[1], sent[0]);
    if (!Y) continue;
    const versions = [Y.encodeStateVector(first), Y.encodeStateVector(second)];
    for (let i = 0; i < 50; i++) first.getText("t").insert(1000 + i, "x");
    for (let i = 0; i < 100; i++) second.getText("t").insert(1200 + i, "y");
    const updates = [Y.encodeStateAsUpdate(first, versions[0]), Y.encodeStateAsUpdate(second, versions[1])], then = now();
    Y.applyUpdate(first, updates[1]);
    rounds.Yjs.push(now() - then);
    Y.applyUpdate(second, updates[0]);
  }
  for (const name of names) rounds[name] = median(rounds[name].slice(10));
  tell("a peer's hundred letters beside fifty", rounds);
}
