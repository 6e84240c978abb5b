// Two editors that keep their texts in buffers of their own: what ../../examples/editor.c does in C, in the same order.
//
//     node example.mjs STEPS SEED FILE
//
// Both type at drawn places, exchange what the other lacks in pieces that are cut anywhere, and carry out the changes that they are told
// of in their buffers. After each step, or each tenth one of very many, the buffer has to be the document's text. At the end the first
// document is written to FILE, and its text is printed: `egw cat FILE` prints the same.
import { writeFileSync } from "node:fs";
import { Document, Peer, Refused } from "./egw.js";

const [steps = 1000, seed = 1, file = "editor.egw"] = process.argv.slice(2);
const every = steps < 10000 ? 1 : 10;
const letters = ["a", "b", " ", "\n", "é", "€", "🍵"];

let state = BigInt(seed);
function draw(below) {
  state = BigInt.asUintN(64, state * 6364136223846793005n + 1442695040888963407n);
  return Number((state >> 33n) & 0xffffffffn) % below;
}

function expect(found, wanted) {
  if (found !== wanted) throw new Error(`found ${found}, and not ${wanted}`);
}

function expectRefused(status, call) {
  try {
    call();
  } catch (fault) {
    if (fault instanceof Refused && fault.status === status) return;
    throw fault;
  }
  throw new Error(`isn't refused with "${status}"`);
}

class Editor {
  constructor(document) {
    this.document = document;
    this.peer = new Peer();
    this.buffer = "";
    this.characters = []; // of the buffer, to draw one of them
  }

  replace(at, deleted, inserted) {
    this.buffer = this.buffer.slice(0, at) + inserted + this.buffer.slice(at + deleted);
    this.characters = [...this.buffer];
  }

  unitsBefore(index) {
    return this.characters.slice(0, index).join("").length;
  }

  /** Carries out in the buffer what was received. */
  catchUp() {
    for (const { at, deleted, inserted } of this.document.changes()) this.replace(at, deleted, inserted);
  }

  /** The user types a letter, or deletes one: the buffer first, then the document. */
  type() {
    const count = this.characters.length;
    if (count > 0 && draw(3) === 0) {
      const index = draw(count), at = this.unitsBefore(index), units = this.characters[index].length;
      this.replace(at, units, "");
      this.document.delete(at, units);
    } else {
      const at = this.unitsBefore(draw(count + 1)), letter = letters[draw(letters.length)];
      this.replace(at, 0, letter);
      this.document.insert(at, letter);
    }
  }

  /** Hands bytes over in drawn pieces, and whatever is answered back, until nothing is left to say. */
  send(other, bytes) {
    for (let sent = 0; sent < bytes.length; ) {
      const piece = bytes.subarray(sent, sent + 1 + draw(64));
      sent += piece.length;
      const reply = other.document.receive(other.peer, piece);
      other.catchUp();
      other.send(this, reply);
    }
  }

  /** Fetches what the other has and this one lacks. */
  fetch(other) {
    this.send(other, this.document.ask());
  }

  compare() {
    expect(this.document.text(), this.buffer);
    expect(this.document.length, this.buffer.length);
  }

  /** A drawn index stands where it does in the buffer. Inside the next character no index stands. */
  comparePlaces() {
    const { document, characters, buffer } = this;
    const index = draw(characters.length + 1), at = this.unitsBefore(index), next = characters[index] ?? "";
    expect(document.slice(at, at + next.length), next);
    if (next.length !== 1) expectRefused("no index", () => document.slice(at, at + 1));
    expectRefused("no index", () => document.insert(buffer.length + 1, "a"));
  }
}

const both = [];
for (const agent of ["ada", "bob"]) both.push(new Editor(await Document.open(undefined, { agent })));
const [ada, bob] = both;
for (let step = 0; step < steps; step++) {
  const who = draw(2);
  if (draw(8) === 0) both[who].fetch(both[1 - who]);
  else both[who].type();
  if (step % every === 0) {
    both[who].compare();
    both[who].comparePlaces();
  }
}
ada.fetch(bob);
bob.fetch(ada);
for (const editor of both) editor.compare();
expect(ada.buffer, bob.buffer);
writeFileSync(file, ada.document.save());
process.stdout.write(ada.document.text());
