// Tries the module for JavaScript: random sessions of three documents, each growth of memory refused once, a memory that is full, hostile
// bytes, what is forgotten, and the program of the page.
//
//     node --expose-gc js.mjs FOLDER        FOLDER has what bindings/js has, and egw.wasm
import { createHash } from "node:crypto";
import { readFileSync, readdirSync } from "node:fs";
import { pathToFileURL } from "node:url";

const folder = `${pathToFileURL(process.argv[2])}/`;
const { Document, Peer, Refused, SessionEnded, load } = await import(new URL("egw.js", folder));
const { loaded } = await import(new URL("library.js", folder));
const bytes = readFileSync(new URL("egw.wasm", folder));
const module = new WebAssembly.Module(bytes);
const top = new URL("..", import.meta.url);

function drawer(seed) {
  let state = seed >>> 0;
  return (below) => {
    state = (Math.imul(state, 1664525) + 1013904223) >>> 0;
    return Math.floor((state / 4294967296) * below);
  };
}

function stop(what) {
  throw new Error(what);
}

/** Whether a call is refused, and how. Anything else that it throws, as a trap, ends the trial. */
function fault(call) {
  try {
    call();
    return null;
  } catch (error) {
    if (error instanceof Refused) return error;
    throw error;
  }
}

const same = (one, other) => Buffer.compare(one, other) === 0;
const letters = ["a", "b", " ", "\n", "\\", "é", "€", "🍵", "𝄞"];

/** A document, and the text that its user sees. */
class Editor {
  constructor(agent) {
    this.document = new Document(undefined, { agent });
    this.shown = "";
    this.edits = 0;
  }

  index(draw) {
    const at = draw(this.shown.length + 1);
    return /[\udc00-\udfff]/.test(this.shown[at] ?? "") ? at - 1 : at;
  }

  type(draw) {
    const { document } = this, kind = draw(40), at = this.index(draw);
    if (kind === 0) document.mark(["tea", "noon"][draw(2)]);
    else if (kind === 1) {
      const refused = fault(() => document.undo(`${["ada", "bob", "eve"][draw(3)]}:${draw(20)}`, 1 + draw(5)));
      if (refused && refused.status !== "unknown event") throw refused;
      this.catchUp();
    } else if (this.shown && draw(3) === 0) {
      const gone = [...this.shown.slice(at)].slice(0, 1 + draw(4)).join("");
      this.shown = this.shown.slice(0, at) + this.shown.slice(at + gone.length);
      if (gone) document.delete(at, gone.length);
    } else {
      const text = Array.from({ length: 1 + draw(5) }, () => letters[draw(letters.length)]).join("");
      this.shown = this.shown.slice(0, at) + text + this.shown.slice(at);
      document.insert(at, text);
    }
    this.edits++;
  }

  catchUp() {
    for (const { at, deleted, inserted } of this.document.changes()) {
      this.shown = this.shown.slice(0, at) + inserted + this.shown.slice(at + deleted);
    }
  }

  compare(draw) {
    const { document, shown } = this;
    if (document.text() !== shown || document.length !== shown.length) stop("the buffer isn't the text");
    const at = this.index(draw);
    if (document.slice(at) !== shown.slice(at) || document.caretIndex(document.caret(at)) !== at) stop("another place");
    if (/[\ud800-\udbff]/.test(shown[at] ?? "") && fault(() => document.insert(at + 1, "a"))?.status !== "no index") stop("inside");
  }
}

/** What one has and the other lacks, in drawn pieces. */
function exchange(one, other, draw) {
  const ends = [{ editor: one, peer: new Peer() }, { editor: other, peer: new Peer() }];
  const send = (to, sent) => {
    for (let at = 0; at < sent.length; ) {
      const piece = sent.subarray(at, (at += 1 + draw(60)));
      const reply = ends[to].editor.document.receive(ends[to].peer, piece);
      if (draw(2)) ends[to].editor.catchUp();
      send(1 - to, reply);
    }
    ends[to].editor.catchUp();
  };
  send(1, one.document.ask());
  for (const { peer } of ends) peer.free();
}

function session(seed, steps) {
  const draw = drawer(seed), editors = ["ada", "bob", "eve"].map((agent) => new Editor(agent));
  for (let step = 0; step < steps; step++) {
    const editor = editors[draw(3)];
    if (draw(6) === 0) exchange(editor, editors[draw(3)], draw);
    else editor.type(draw);
    if (step % 10 === 0) editor.compare(draw);
  }
  for (const one of editors) for (const other of editors) if (one !== other) exchange(one, other, draw);
  for (const editor of editors) editor.compare(draw);
  if (new Set(editors.map((editor) => editor.shown)).size !== 1) stop("the editors show different texts");
  return editors;
}

await load(module);
let edits = 0;
for (let seed = 1; seed <= 10; seed++) {
  const editors = session(seed, 150);
  edits += editors.reduce((sum, editor) => sum + editor.edits, 0);
  const again = new Document(editors[0].document.save());
  if (again.text() !== editors[0].shown || again.changes().length !== 0) stop("the saved document isn't the same");
}
console.log(`${edits} edits of three documents: what is shown by the changes is the text`);

// Each growth of memory in each call is refused once: the document is as before, and the call does what it does with ample memory.
const [ada, bob] = session(77, 120).map((editor) => editor.document);
const file = ada.save(), question = bob.ask();
bob.insert(0, "tea 🍵");
const events = bob.events(ada.count);
const frames = [question, events, ada.events(0), bob.receive(new Peer(), ada.ask())];
const calls = {
  open: () => new Document(file).free(),
  new: () => new Document().free(),
  peer: () => new Peer().free(),
  insert: (document) => document.insert(1, "x"),
  insertMany: (document) => document.insert(0, "a longer text, which needs more than one leaf of the tree of a text 🍵".repeat(4)),
  delete: (document) => document.delete(0, document.text().codePointAt(0) > 0xffff ? 2 : 1),
  mark: (document) => document.mark("noon"),
  undo: (document) => document.undo("ada:2", 3),
  text: (document) => document.text(),
  slice: (document) => document.slice(0),
  textAt: (document) => document.text("ada:1"),
  heads: (document) => document.heads(),
  marks: (document) => JSON.stringify(document.marks()),
  caret: (document) => document.caret(0),
  caretIndex: (document) => document.caretIndex("ada:1"),
  blame: (document) => document.blame(),
  save: (document) => Buffer.from(document.save()).toString("hex"),
  ask: (document) => Buffer.from(document.ask()).toString("hex"),
  events: (document) => Buffer.from(document.events(3)).toString("hex"),
  hearQuestion: (document, peer) => Buffer.from(document.receive(peer, question)).toString("hex"),
  hearEvents: (document, peer) => Buffer.from(document.receive(peer, events)).toString("hex"),
  changes: (document) => JSON.stringify(document.changes()),
};
let growths = 0, unneeded = 0;
for (const [name, call] of Object.entries(calls)) {
  const { refuse } = loaded().calls;
  const fresh = () => {
    const document = new Document(file, { agent: "zoe" }), peer = new Peer();
    if (name === "changes") document.receive(peer, events);
    return { document, peer };
  };
  const whole = fresh();
  const wanted = call(whole.document, whole.peer), after = whole.document.save();
  for (let growth = 1; ; growth++) {
    const { document, peer } = fresh(), before = document.save(), text = document.text();
    refuse(growth);
    let answer;
    const refused = fault(() => (answer = call(document, peer)));
    if (refuse(0) > 0) {
      document.free();
      peer.free();
      break;
    }
    growths++;
    if (refused && refused.status !== "out of memory") stop(`${name}, growth ${growth}: ${refused}`);
    if (refused && name !== "hearEvents" && (!same(document.save(), before) || document.text() !== text)) stop(`${name}, growth ${growth}: changed`);
    if (!refused) unneeded++;
    else if (name === "hearEvents" || name === "hearQuestion") {
      // Its bytes may be lost: another connection brings them.
      const next = new Peer();
      call(document, next);
      next.free();
    } else answer = call(document, peer);
    if ((!refused || !name.startsWith("hear")) && answer !== wanted) stop(`${name}, growth ${growth}: another answer`);
    if (!same(document.save(), after)) stop(`${name}, growth ${growth}: another document`);
    document.free();
    peer.free();
  }
}
console.log(`${growths} growths refused, ${unneeded} of them not needed: each document is whole and readable`);

/** The same module, whose memory has so many pages at most. */
function withPages(most) {
  const leb = (number) => (number < 128 ? [number] : [(number & 127) | 128, ...leb(number >>> 7)]);
  const read = (at) => {
    let value = 0, shift = 0;
    for (;;) {
      const byte = bytes[at++];
      value += (byte & 127) * 2 ** shift;
      shift += 7;
      if (byte < 128) return [value, at];
    }
  };
  const parts = [bytes.subarray(0, 8)];
  for (let at = 8; at < bytes.length; ) {
    const kind = bytes[at], [size, begin] = read(at + 1);
    if (kind === 5) {
      const [least] = read(begin + 2), body = [1, bytes[begin + 1] | 1, ...leb(least), ...leb(least + most)];
      parts.push(Buffer.from([5, ...leb(body.length), ...body]));
    } else parts.push(bytes.subarray(at, begin + size));
    at = begin + size;
  }
  return Buffer.concat(parts);
}

let typed = 0;
for (const most of [2, 3, 5, 9]) {
  await load(withPages(most));
  const draw = drawer(most), document = new Document(undefined, { agent: "ada" });
  let text = "", refused = null;
  for (; !refused; typed++) {
    const at = draw(text.length + 1), letter = letters[draw(5)];
    refused = fault(() => document.insert(at, letter));
    if (!refused) text = text.slice(0, at) + letter + text.slice(at);
  }
  if (refused.status !== "out of memory" || document.count !== text.length || document.length !== text.length) stop(`full: ${refused}`);
  for (let at = 0; at < text.length; at += 100) if (document.slice(at, Math.min(at + 100, text.length)) !== text.slice(at, at + 100)) stop("full: another text");
}
console.log(`${typed} letters typed until memory was full: each document is whole and readable`);

// Hostile bytes: whatever is done to files and frames, a call is refused or done.
const files = [file, bob.save()];
for (const name of readdirSync(new URL("examples", top))) if (name.endsWith(".egw")) files.push(readFileSync(new URL(`examples/${name}`, top)));

function mutant(from, draw) {
  let made = Buffer.from(from);
  for (let times = 1 + draw(3); times > 0; times--) {
    const at = draw(made.length + 1), rest = made.subarray(at), more = 1 + draw(8);
    switch (draw(6)) {
      case 0: if (rest.length) made[at] ^= 1 << draw(8); break;
      case 1: if (rest.length) made[at] = [0, 1, 0x7f, 0x80, 0xff, draw(256)][draw(6)]; break;
      case 2: if (rest.length >= 4) made.writeUInt32LE([0, 1, 0x7fffffff, 0x80000000, 0xffffffff, draw(5000)][draw(6)], at); break;
      case 3: made = Buffer.concat([made.subarray(0, at), rest.subarray(more)]); break;
      case 4: made = Buffer.concat([made.subarray(0, at), Buffer.from(Array.from({ length: more }, () => draw(256))), rest]); break;
      case 5: { const other = draw(made.length + 1); made = Buffer.concat([made.subarray(0, at), made.subarray(other, other + 4 * more), rest]); break; }
    }
  }
  return made;
}

/** With the digest of what stands before it. */
function digested(made) {
  if (made.length < 32) return made;
  const body = made.subarray(0, made.length - 32);
  return Buffer.concat([body, createHash("sha256").update(body).digest()]);
}

await load(module);
const draw = drawer(2026), counts = { opened: 0, refused: 0, heard: 0, ended: 0 };
for (let round = 0; round < 3000; round++) {
  const from = files[draw(files.length)], made = mutant(from, draw), hostile = draw(8) ? digested(made) : made;
  let document;
  if (fault(() => (document = new Document(hostile, { agent: "zoe" })))) {
    counts.refused++;
    continue;
  }
  counts.opened++;
  document.insert(0, "a");
  if (new Document(document.save()).text() !== document.text()) stop("an opened mutant isn't saved whole");
  document.free();
}
for (let round = 0; round < 3000; round++) {
  const document = new Document(draw(2) ? file : undefined, { agent: "zoe" }), peer = new Peer();
  let refused = null;
  for (let times = 1 + draw(3); times > 0 && !refused; times--) {
    const hostile = draw(4) ? mutant(frames[draw(frames.length)], draw) : frames[draw(frames.length)];
    for (let at = 0; at < hostile.length && !refused; ) refused = fault(() => document.receive(peer, hostile.subarray(at, (at += 1 + draw(400)))));
  }
  if (refused && !(refused instanceof SessionEnded)) stop(`hostile frames: ${refused}`);
  counts[refused ? "ended" : "heard"]++;
  let text = round % 2 ? document.text() : null;
  document.changes();
  if (text !== null && text !== document.text()) stop("changes change the text");
  peer.free();
  document.free();
}
console.log(`6000 mutants: ${counts.opened} opened and ${counts.refused} refused, ${counts.heard} heard and ${counts.ended} ended a session; none trapped`);

// What is forgotten is freed.
if (globalThis.gc) {
  const held = loaded().memory.length;
  for (let round = 0; round < 40; round++) {
    for (let i = 0; i < 50; i++) new Document(file);
    gc();
    await new Promise((done) => setTimeout(done, 1));
  }
  if (loaded().memory.length > held + 50 * 20 * file.length + 8e6) stop(`what is forgotten isn't freed: ${loaded().memory.length} bytes`);
  console.log("2000 forgotten documents: their memory is used again");
}
